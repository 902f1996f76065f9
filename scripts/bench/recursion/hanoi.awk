BEGIN {
    move(17, "a", "b", "c")
    print moves
}

function move(n, a, b, c)
{
    if (n == 0) {
        return
    }
    move(n - 1, a, c, b)
    moves++
    move(n - 1, c, b, a)
}
