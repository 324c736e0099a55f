kernel void work(global uint *field, local uint *cells)
{
    uint lane = get_local_id(0);
    uint lanes = get_local_size(0);
    uint a = field[lane + get_group_id(0) * lanes];
    uint b = 0;
    cells[lane] = a;
    barrier(CLK_LOCAL_MEM_FENCE);
    uint rest = lanes / 2;
    while (rest) {
        if (lane < rest) {
            a = cells[lane];
            b = cells[lane + rest];
            cells[lane] = a + b;
        }
        barrier(CLK_LOCAL_MEM_FENCE);
        rest = rest / 2;
    }
    if (lane == 0) {
        a = cells[0];
        field[get_group_id(0) * lanes] = a;
    }
}
