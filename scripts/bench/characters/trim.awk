{
    gsub(/^[ \t]+|[ \t]+$/, "", $0)
    gsub(/[ \t]+/, " ", $0)
    print toupper(substr($0, 1, 1)) substr($0, 2)
}
