# The sum of each line of the task.
BEGIN { ARGV[ARGC++] = "solutions/a.txt" } # not given
{
	sum = 0
	for (i = 1; i <= NF; i++) sum += $i
	print sum > "answers/a.txt"
}
END {
	close("answers/a.txt")
	while ((getline line < "answers/a.txt") > 0) text = text " " line
	print student " in " ENVIRON["TERM"] ":" text

	# What this server denies.
	print "a peek: " (getline line < "solutions/a.txt")
	print "a command: " system("cat solutions/a.txt")
	print "5" > "answers/../solutions/a.txt"
}
