BEGIN {
    put("", "abcdefgh")
    print n
}

function put(s, rest, i)
{
    if (rest == "") {
        n++
        return
    }
    for (i = 1; i <= length(rest); i++) {
        put(s substr(rest, i, 1), substr(rest, 1, i - 1) substr(rest, i + 1))
    }
}
