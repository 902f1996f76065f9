# What each shop sold in a month, in cents.
BEGIN {
	FS = ","
	while ((getline < "rates.txt") > 0) rate[$1] = $2
}
{ cents[$1] += $2 * rate[$3] }
END {
	for (shop in cents) print month, shop, cents[shop] > "out/totals.txt"
	close("out/totals.txt")
	print "for " ENVIRON["USER"] ": status " system("test -s out/totals.txt")

	# What this host denies.
	print "another file: " (getline < "in/2026-10.csv")
	print "another command: " system("test -s out/totals.txt; id")
	print "total 13" > "out/archive/2025.txt"
}
