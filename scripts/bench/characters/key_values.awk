{
    for (i = 1; i <= NF; i++) {
        at = index($i, "=")
        v[substr($i, 1, at - 1)] = substr($i, at + 1)
    }
    s[v["host"]] += v["mem"]
}

END {
    for (h in s) {
        print h, s[h]
    }
}
