{
    for (i = 1; i <= NF; i++) {
        if (length(line) + length($i) > 60) {
            print line
            line = $i
        } else {
            line = line (line == "" ? "" : " ") $i
        }
    }
}

END {
    print line
}
