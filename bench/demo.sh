#!/bin/sh
# Runs `demo NUMBER 16` many times on 1, 2 and 4 processors. All runs have to write the same six lines: it ends with status 1 at the first
# one that doesn't, or whose status isn't 0. It prints these lines, and for each number of processors how many runs there were, and the
# least and the mean of their times in milliseconds, each with the start of the program.
#
#     bench/demo.sh PROGRAM [NUMBER [RUNS]]
#
# PROGRAM is the built program, as `build` leaves it in out/layers. NUMBER is 7 and RUNS 50 where they aren't given.
set -eu

[ $# -ge 1 ] && [ $# -le 3 ] && [ -x "$1" ] || { echo "usage: bench/demo.sh PROGRAM [NUMBER [RUNS]]" >&2; exit 2; }
program=$1
number=${2:-7}
runs=${3:-50}

work=$(mktemp -d)
trap 'rm -rf "$work"' EXIT

fail() {
    echo "bench/demo.sh: $1" >&2
    exit 1
}

"$program" demo "$number" 16 >"$work/first" || fail "the status of the first run was $?"
cat "$work/first"
for last in 0 1 3; do
    : >"$work/times"
    run=0
    while [ "$run" -lt "$runs" ]; do
        before=$(date +%s%N)
        taskset -c "0-$last" "$program" demo "$number" 16 >"$work/lines" || fail "the status was $? on processors 0 to $last"
        after=$(date +%s%N)
        cmp -s "$work/first" "$work/lines" || fail "other lines on processors 0 to $last: $(cat "$work/lines")"
        echo $((after - before)) >>"$work/times"
        run=$((run + 1))
    done
    sort -n "$work/times" | awk -v processors=$((last + 1)) '
        NR == 1 { least = $1 }
        { sum += $1 }
        END { printf "processors %d runs %d least %.1f mean %.1f\n", processors, NR, least / 1e6, sum / NR / 1e6 }'
done
