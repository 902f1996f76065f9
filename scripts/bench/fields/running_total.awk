{
    total += $10
    if (NR % 100 == 0) {
        print NR, total
    }
}
