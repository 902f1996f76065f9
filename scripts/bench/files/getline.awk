BEGIN {
    while ((getline line < "text") > 0) {
        n++
        l += length(line)
    }
    print n, l
}
