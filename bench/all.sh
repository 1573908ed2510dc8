#!/bin/sh
# all.sh   the counts of bench/README.md, by valgrind, in one run; wants a C compiler too
cd "$(dirname "$0")" || exit 1
date -u +"%d %B %Y"
for step in "slopes.py --limits" "streams.py" "streams.py memory" "slopes.py" "count.py" "figures.py" "figures.py --memory"; do
    echo
    echo "## $step"
    echo
    python3 $step
done
for job in shift schnyder bars convex rect; do
    echo
    echo "## count.py --draw $job"
    echo
    python3 count.py --draw $job
done
