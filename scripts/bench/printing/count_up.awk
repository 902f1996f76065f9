BEGIN {
    for (i = 1; i <= 300000; i++) {
        print i
    }
}
