BEGIN {
    n = 70
    for (i = 0; i < n; i++) {
        for (j = 0; j < n; j++) {
            a[i, j] = (i * 7 + j) % 10
            b[i, j] = (i + j * 3) % 10
        }
    }
    for (i = 0; i < n; i++) {
        for (j = 0; j < n; j++) {
            s = 0
            for (k = 0; k < n; k++) {
                s += a[i, k] * b[k, j]
            }
            t += s
        }
    }
    print t
}
