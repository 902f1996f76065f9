NR == FNR {
    there[$1]
    next
}

! ($1 in there) {
    n++
}

END {
    print n + 0
}
