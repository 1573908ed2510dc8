#!/bin/bash
# Counts one part of the connected planar graphs of N vertices: part.sh N PART PARTS, with parts from 0 on.
#
# Writes a line `n m f c genus records` for each kind of map, and `end records R refused F`. The status is 0 only where the
# part is whole. PIGALE names the program; without it that is the one of release/, from the top of the repository.
set -o pipefail
nauty-geng -c -q "$1" "$2/$3" | nauty-planarg -p -q |
    { "${PIGALE:-release/pigale-$(uname -m)-linux}" count || [ $? -eq 1 ]; } |
    awk '$1 == "count" { records[$4 " " $6 " " $8 " " $10 " " $12]++ }
         $1 == "end" { end = $0 }
         END { for (counts in records) print counts, records[counts]; print end; exit end == "" }'
