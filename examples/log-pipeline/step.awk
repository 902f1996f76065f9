# Counts the lines of a day by their level, beside the day before.
{ count[$1]++ }
END {
	file = "daily/" day ".log"
	while ((getline < "daily/last.log") > 0) before[$1] = $2
	for (level in count) {
		print level, count[level] > file
		print count[level], level, count[level] - before[level] | "sort -rn"
	}
	if (count["error"] > before["error"]) print ENVIRON["SITE"], day >> "alerts.txt"
	close("sort -rn")

	# What this pipeline denies.
	print "sorted into a file: " system("sort -ovictim")
	print "removed: " system("rm -r daily")
}
