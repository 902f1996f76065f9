! seen[$0]++ {
    print
}
