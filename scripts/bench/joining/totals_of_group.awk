NR == FNR {
    group[$1] = $3
    next
}

$1 in group {
    s[group[$1]] += $5 % 1000
}

END {
    for (g in s) {
        print g, s[g]
    }
}
