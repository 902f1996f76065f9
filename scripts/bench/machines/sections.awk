/error/ {
    section = "error"
}

/login/ {
    section = "login"
}

/user/ {
    section = "user"
    next
}

{
    n[section]++
}

END {
    for (s in n) {
        print s, n[s]
    }
}
