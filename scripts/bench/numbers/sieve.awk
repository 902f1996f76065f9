BEGIN {
    n = 200000
    for (i = 2; i <= n; i++) {
        if (! (i in no)) {
            c++
            for (j = i * i; j <= n; j += i) {
                no[j]
            }
        }
    }
    print c
}
