{
    d = 0
    for (i = 1; i <= length($0); i++) {
        c = substr($0, i, 1)
        if (c == "{" || c == "[") {
            d++
        } else if (c == "}" || c == "]") {
            d--
        }
        if (d > most) {
            most = d
        }
    }
    if (d) {
        bad++
    }
}

END {
    print most, bad + 0
}
