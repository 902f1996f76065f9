BEGIN {
    a = "abcdefghijklmnopqrstuvwxyz"
    for (i = 1; i <= 26; i++) {
        to[substr(a, i, 1)] = substr(a, (i + 12) % 26 + 1, 1)
    }
}

{
    r = ""
    for (i = 1; i <= length($0); i++) {
        c = substr($0, i, 1)
        r = r (c in to ? to[c] : c)
    }
    print r
}
