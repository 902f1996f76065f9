{
    print "<row id=\"" NR "\">"
    for (i = 1; i <= 3; i++) {
        print "  <c>" $i "</c>"
    }
    print "</row>"
}
