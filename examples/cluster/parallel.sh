#!/bin/bash
# Counts the connected planar graphs of N vertices in parts by GNU parallel: parallel.sh N PARTS [OPTION OF parallel..]
#
# Run it from the top of the repository. With `--sshlogin 4/one,8/other` the parts run on other machines that have nauty; the
# program, which is linked by itself, and part.sh go along. A part that fails is tried three times, and the same line once more
# does those alone that are not done yet. What each part wrote is in the folder planar-N.
n=$1 parts=$2 && shift 2 && mkdir -p "planar-$n" || exit 2
case " $* " in *" --sshlogin "*) along=(--basefile examples/cluster/part.sh --basefile "release/pigale-$(uname -m)-linux" --workdir .) ;; esac
seq 0 $((parts - 1)) |
    parallel --joblog "planar-$n/log" --resume-failed --retries 3 --results "planar-$n/{}.txt" "${along[@]}" "$@" \
        bash examples/cluster/part.sh "$n" {} "$parts" > /dev/null || exit
awk -v parts="$parts" -f examples/cluster/sum.awk "planar-$n"/*.txt
