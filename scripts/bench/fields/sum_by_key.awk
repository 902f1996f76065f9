{
    n[$4] += $3
}

END {
    for (k in n) {
        print k, n[k]
    }
}
