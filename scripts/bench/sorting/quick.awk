{
    v[++n] = $1
}

n == 20000 {
    exit
}

END {
    sort(1, n)
    for (i = 1; i <= n; i += 50) {
        print v[i]
    }
}

function sort(l, r, i, j, x, t)
{
    while (l < r) {
        x = v[int((l + r) / 2)]
        i = l
        j = r
        while (i <= j) {
            while (v[i] < x) {
                i++
            }
            while (v[j] > x) {
                j--
            }
            if (i <= j) {
                t = v[i]
                v[i++] = v[j]
                v[j--] = t
            }
        }
        if (j - l < r - i) {
            sort(l, j)
            l = i
        } else {
            sort(i, r)
            r = j
        }
    }
}
