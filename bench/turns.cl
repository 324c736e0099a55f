kernel void work(global uint *field, local uint *cells)
{
    uint lane = get_local_id(0);
    uint i = 0;
    uint a = 0;
    while (i < lane % 32) {
        a = a + i * i;
        i = i + 1;
    }
    field[lane + get_group_id(0) * get_local_size(0)] = a;
}
