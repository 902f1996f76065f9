{
    n = 0
    field = ""
    quoted = 0
    for (i = 1; i <= length($0); i++) {
        c = substr($0, i, 1)
        if (quoted) {
            if (c == "\"") {
                quoted = 0
            } else {
                field = field c
            }
        } else if (c == "\"") {
            quoted = 1
        } else if (c == ",") {
            v[++n] = field
            field = ""
        } else {
            field = field c
        }
    }
    v[++n] = field
    s += n
    l += length(v[2])
}

END {
    print s, l
}
