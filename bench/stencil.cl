kernel void work(global uint *field, local uint *cells)
{
    uint lane = get_local_id(0);
    uint lanes = get_local_size(0);
    uint i = 0;
    uint left = 0;
    uint right = 0;
    uint mid = field[lane + get_group_id(0) * lanes];
    while (i < 10) {
        cells[lane] = mid;
        barrier(CLK_LOCAL_MEM_FENCE);
        left = cells[(lane + (lanes - 1)) % lanes];
        right = cells[(lane + 1) % lanes];
        barrier(CLK_LOCAL_MEM_FENCE);
        mid = (left + mid + right) / 3;
        i = i + 1;
    }
    field[lane + get_group_id(0) * lanes] = mid;
}
