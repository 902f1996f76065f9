FNR == 1 && NR > 1 {
    print was, n
    n = 0
}

{
    n++
    was = FILENAME
}

END {
    print was, n
}
