# Adds up what the parts counted.
{
	requests[$1] += $2
	bytes[$1] += $3
}
END { for (site in requests) print site, requests[site], bytes[site] }
