{
    for (i = 1; i <= NF; i++) {
        n[$i]++
    }
}

END {
    for (w in n) {
        print w, n[w]
    }
}
