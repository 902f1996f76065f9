{
    t = $1
    $1 = $2
    $2 = t
    print
}
