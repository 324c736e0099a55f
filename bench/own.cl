kernel void work(global uint *field, local uint *cells)
{
    uint i = 0;
    uint a = 0;
    while (i < 32) {
        a = field[get_local_id(0) + get_group_id(0) * get_local_size(0)];
        a = a * 3 + 7;
        field[get_local_id(0) + get_group_id(0) * get_local_size(0)] = a;
        i = i + 1;
    }
}
