{
    v[NR] = $1
}

NR == 700 {
    exit
}

END {
    n = NR
    for (i = 2; i <= n; i++) {
        x = v[i]
        for (j = i - 1; j > 0 && v[j] > x; j--) {
            v[j + 1] = v[j]
        }
        v[j + 1] = x
    }
    for (i = 1; i <= n; i++) {
        print v[i]
    }
}
