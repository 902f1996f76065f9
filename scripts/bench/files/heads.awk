FNR <= 3 {
    print FILENAME ": " $0
}

FNR > 3 {
    skipped++
}

END {
    print skipped
}
