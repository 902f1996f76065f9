match($0, /"msg":"[^"]*"/) {
    m = substr($0, RSTART + 7, RLENGTH - 8)
    n[length(m)]++
}

END {
    for (k in n) {
        print k, n[k]
    }
}
