BEGIN {
    n = 8
    place(1)
    print found
}

function place(r, c)
{
    if (r > n) {
        found++
        return
    }
    for (c = 1; c <= n; c++) {
        if (! col[c] && ! up[r + c] && ! down[r - c]) {
            col[c] = up[r + c] = down[r - c] = 1
            place(r + 1)
            col[c] = up[r + c] = down[r - c] = 0
        }
    }
}
