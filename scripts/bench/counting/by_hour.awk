{
    split($4, t, ":")
    n[t[2] ":" t[3]]++
    bytes[t[3]] += $10
}

END {
    for (k in n) {
        print k, n[k]
    }
    for (k in bytes) {
        print k, bytes[k]
    }
}
