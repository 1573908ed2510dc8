# Adds the tables of parts up: awk -v parts=PARTS -f sum.awk FILE.. The status is 0 only where each part has its last line.
$1 == "end" { answered += $3; refused += $5; parts--; next }
NF == 6 { records[$1 " " $2 " " $3 " " $4 " " $5] += $6; next }
NF { print "no line of a table: " $0 > "/dev/stderr"; bad = 1 }
END {
    for (counts in records) print counts, records[counts] | "sort -n -k1,1 -k2,2"
    close("sort -n -k1,1 -k2,2")
    print "end records", answered + 0, "refused", refused + 0
    exit bad || parts != 0
}
