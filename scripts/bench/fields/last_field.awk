{
    n[$NF]++
}

END {
    for (k in n) {
        if (n[k] > 1) {
            c++
        }
    }
    print c + 0
}
