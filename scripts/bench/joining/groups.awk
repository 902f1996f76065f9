$1 != key {
    if (NR > 1) {
        print key ":" line
    }
    key = $1
    line = ""
}

{
    line = line " " NR
}

END {
    print key ":" line
}
