{
    h[++n] = $2 + 0
}

n == 20000 {
    exit
}

END {
    for (i = int(n / 2); i > 0; i--) {
        sift(i, n)
    }
    for (k = n; k > 1; k--) {
        t = h[1]
        h[1] = h[k]
        h[k] = t
        sift(1, k - 1)
    }
    for (i = 1; i <= n; i += 100) {
        print h[i]
    }
}

function sift(i, n, c, x)
{
    x = h[i]
    while ((c = 2 * i) <= n) {
        if (c < n && h[c + 1] > h[c]) {
            c++
        }
        if (h[c] <= x) {
            break
        }
        h[i] = h[c]
        i = c
    }
    h[i] = x
}
