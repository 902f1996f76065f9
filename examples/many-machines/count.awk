# Requests and bytes by site, of one part of the log.
BEGIN { while ((getline < "sites.txt") > 0) name[$1] = $2 }
{
	requests[$1]++
	bytes[$1] += $2
}
END {
	for (site in requests) print name[site], requests[site], bytes[site]
	system("hostname") # which this policy denies
}
