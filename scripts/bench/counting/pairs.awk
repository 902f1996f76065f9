{
    n[$1, $9]++
}

END {
    for (k in n) {
        split(k, part, SUBSEP)
        s[part[2]] += n[k]
    }
    for (k in s) {
        print k, s[k]
    }
}
