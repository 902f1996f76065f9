{
    b[int(length($0) / 8)]++
}

END {
    for (k in b) {
        print k * 8, b[k]
    }
}
