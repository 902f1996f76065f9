{
    line = ""
    n = length($0)
    for (i = 1; i <= n; i++) {
        c = substr($0, i, 2)
        if (inside) {
            if (c == "g ") {
                inside = 0
                i++
            }
        } else if (c == "re") {
            inside = 1
            i++
        } else {
            line = line substr($0, i, 1)
        }
    }
    print line
}
