#!/bin/bash
# Runs each job with one request for memory refused, for each of its requests in turn, and compares how the run ends
# with the run that has ample memory: it has to end with status 6 and a prefix of the text, or as with ample memory.
#
#   refused_memory.sh [PROGRAM]     the built program, by default crates/pigale/out/pigale
#
# Prints a line a job: how many requests it made, how many refusals ended with status 6, and how many as with ample
# memory. Wants a C compiler and glibc. Not part of the gate.
here=$(cd "$(dirname "$0")" && pwd)
top=$here/..
program=${1:-$top/crates/pigale/out/pigale}
out=$here/out/refused
mkdir -p "$out" && cc -O2 -shared -fPIC -o "$out/refuse.so" "$here/refuse.c" || exit 70
wrong=0

# try NUMBER WORDS..: runs the program with that request refused; its text in $out/text, its status in $status
try() {
    LD_PRELOAD=$out/refuse.so REFUSE=$1 REFUSE_COUNT=$out/count "$program" "${@:2}" < "$out/input" > "$out/text" 2> /dev/null
    status=$?
}

# over NAME INPUT WORDS..: all requests of one job
over() {
    local name=$1 ample total number six=0 same=0 bad=0
    cp "$2" "$out/input"
    shift 2
    try 0 "$@"
    ample=$status
    total=$(cat "$out/count")
    cp "$out/text" "$out/whole"
    for ((number = 1; number <= total; number++)); do
        try "$number" "$@"
        if [ "$status" = "$ample" ] && cmp -s "$out/text" "$out/whole"; then
            same=$((same + 1))
        elif [ "$status" = 6 ] && cmp -s -n "$(stat -c %s "$out/text")" "$out/text" "$out/whole"; then
            six=$((six + 1))
        else
            bad=$((bad + 1))
            echo "$name: WRONG: request $number refused: status $status, $(stat -c %s "$out/text") bytes of text"
        fi
    done
    echo "$name: $total requests: $six with status 6, $same as with ample memory, $bad wrong"
    [ "$bad" = 0 ] || wrong=1
}

platonic=$top/examples/platonic.plc
for job in count shift schnyder bars convex; do
    over "$job platonic.plc" "$platonic" "$job"
done
over "rect quadrangles.plc" "$top/examples/quadrangles.plc" rect
over "embed graphs.g6" "$top/examples/graphs.g6" embed
over "shift --form svg platonic.plc" "$platonic" shift --form svg
over "gen --size 60 --number 1" /dev/null gen --size 60 --number 1
for text in platonic-shift platonic-schnyder platonic-bars platonic-convex quadrangles-rect witnesses crossing; do
    over "verify $text.txt" "$top/examples/$text.txt" verify
done
exit $wrong
