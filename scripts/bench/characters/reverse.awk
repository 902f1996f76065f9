{
    r = ""
    for (i = length($0); i > 0; i--) {
        r = r substr($0, i, 1)
    }
    print r
}
