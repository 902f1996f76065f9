NR > 1 && $0 != was {
    print n, was
    n = 0
}

{
    n++
    was = $0
}

END {
    print n, was
}
