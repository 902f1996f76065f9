{
    for (i = 1; i <= length($0); i++) {
        n[substr($0, i, 1)]++
    }
}

END {
    for (c in n) {
        print c, n[c]
    }
}
