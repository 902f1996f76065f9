BEGIN {
    for (i = 0; i < 60000; i++) {
        n = i
        c = 0
        while (n) {
            c += n % 2
            n = int(n / 2)
        }
        s += c
    }
    print s
}
