{
    for (i = 1; i <= NF; i++) {
        if (NR == 1 || $i > max[i]) {
            max[i] = $i
        }
        if (NR == 1 || $i < min[i]) {
            min[i] = $i
        }
    }
}

END {
    for (i = 1; i <= NF; i++) {
        print i, min[i], max[i]
    }
}
