#!/bin/sh
# Runs a script many times, and replays it in the order of each run: it cuts the order from the run's report, puts it after the
# script, and compares what `run` and `replay` wrote byte for byte. It also puts the whole report after the script, which `audit`
# has to find to be the machine's. It prints how many runs there were, and how many different orders they took. It ends with status 1
# at the first run whose replay wrote anything else or whose audit didn't say `same`, and where a status isn't 0; it then keeps its
# files and tells where they are.
#
#     bench/replays.sh [PROGRAM] SCRIPT [RUNS]
#
# PROGRAM is the built program; without it, `build` beside this folder proves and builds it first, if it isn't built. SCRIPT is a
# script alone, of any tasks and calls. With its order, about two and a half bytes a call, it has to stay within the limit of an
# input. RUNS is 200 where it isn't given; of two words, a second one of digits alone is RUNS.
set -eu

bench=$(cd "$(dirname "$0")" && pwd)
program=
runs=200

usage() {
    echo "usage: bench/replays.sh [PROGRAM] SCRIPT [RUNS]" >&2
    exit 2
}

# The word is a number of runs.
is_count() {
    case $1 in
    '' | 0* | *[!0-9]*) return 1 ;;
    esac
}

case $# in
1) script=$1 ;;
2) if is_count "$2"; then script=$1 runs=$2; else program=$1 script=$2; fi ;;
3) program=$1 script=$2 runs=$3 ;;
*) usage ;;
esac
is_count "$runs" || usage
[ -r "$script" ] || usage
if [ -z "$program" ]; then
    "$bench/../build" >&2
    program=$bench/../out/layers
fi

work=$(mktemp -d)
trap 'rm -rf "$work"' EXIT

# Tells what went wrong, and keeps the files.
fail() {
    trap - EXIT
    echo "bench/replays.sh: run $run of $script: $1" >&2
    exit 1
}

# One of the program's commands, from an input to an output.
command_of_program() {
    status=0
    "$program" "$1" <"$2" >"$3" || status=$?
    [ "$status" -eq 0 ] || fail "the status of $1 was $status; its input is $2 and its output $3"
}

# The script and a line `order`, and the script and a line `report`, each with a line feed between them also where the script's last
# line has none.
run=0
cp "$script" "$work/ordered"
if [ -n "$(tail -c 1 "$script")" ]; then echo >>"$work/ordered"; fi
cp "$work/ordered" "$work/audited"
echo order >>"$work/ordered"
echo report >>"$work/audited"

: >"$work/orders"
while [ "$run" -lt "$runs" ]; do
    run=$((run + 1))
    command_of_program run "$script" "$work/run"
    # Between the report's first line, which counts the calls, and the planes.
    awk 'NR == 1 { next } /^planes / { exit } { print }' "$work/run" >"$work/order"
    cat "$work/ordered" "$work/order" >"$work/input"
    command_of_program replay "$work/input" "$work/replay"
    cmp -s "$work/run" "$work/replay" ||
        fail "the reports $work/run and $work/replay differ; the input of the replay is $work/input"
    cat "$work/audited" "$work/run" >"$work/input"
    command_of_program audit "$work/input" "$work/audit"
    [ "$(cat "$work/audit")" = same ] || fail "audit wrote $work/audit; its input is $work/input"
    { tr '\n' ' ' <"$work/order" && echo; } >>"$work/orders"
done
orders=$(LC_ALL=C sort -u "$work/orders" | wc -l)
echo "$runs runs, $((orders)) different orders; each run's report is that of its replay and its audit"
