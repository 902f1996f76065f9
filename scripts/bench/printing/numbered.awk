{
    print NR ": " $0
}
