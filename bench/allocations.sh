#!/bin/sh
# Refuses each allocation of the built program in turn, one in each run of it, for `run`, `check`, `replay`, `audit` and `ilbm` of
# examples/first-fill.layers and examples/realistic.layers, whose three tasks run on threads, and for `bitmap` of what `ilbm` writes
# of these. Each run has to end with status 5 and to
# write nothing, or with status 0 and its usual text; a report of `run` is usual where `audit` says so. It prints for each command and
# script how many allocations were refused, and how many runs ended in either way. It ends with status 1 at the first run that
# answered anything else, and tells which one it was.
#
#     bench/allocations.sh [PROGRAM]
#
# PROGRAM is the built program, linked to the system's C library; without it, `build` beside this folder proves and builds it first.
# It takes the C compiler cc.
set -eu

bench=$(cd "$(dirname "$0")" && pwd)
program=${1:-}
if [ -z "$program" ]; then
    "$bench/../build" >&2
    program=$bench/../out/layers
fi
work=$(mktemp -d)
trap 'rm -rf "$work"' EXIT
cc -O2 -shared -fPIC -o "$work/refuse.so" "$bench/refuse.c"

# The output of a run is the usual one: of `run` a report that is audited, and else the text that came without a refusal.
is_usual() {
    if [ "$command" = run ]; then
        { cat "$script" && echo report && cat "$work/output"; } | "$program" audit | grep -qx same
    else
        cmp -s "$work/usual" "$work/output"
    fi
}

# Refuses one allocation after another of a command, with its further words, on an input, until a run has fewer.
refuse_each() {
    command=$1 input=$2 number=0 stopped=0 finished=0
    shift 2
    "$program" "$command" "$@" <"$input" >"$work/usual"
    while :; do
        number=$((number + 1)) status=0
        # (`timeout` itself allocates, and isn't to be refused)
        timeout 60 env REFUSED=$number LD_PRELOAD="$work/refuse.so" "$program" "$command" "$@" \
            <"$input" >"$work/output" 2>"$work/said" || status=$?
        grep -q refused "$work/said" || break
        if [ "$status" -eq 5 ] && [ ! -s "$work/output" ]; then
            stopped=$((stopped + 1))
        elif [ "$status" -eq 0 ] && is_usual; then
            finished=$((finished + 1))
        else
            echo "bench/allocations.sh: $command of $script, allocation $number: status $status" >&2
            exit 1
        fi
    done
    echo "$command $(basename "$script"): $((number - 1)) refused, $stopped ended with status 5, $finished with the usual text"
}

for script in "$bench/../examples/first-fill.layers" "$bench/../examples/realistic.layers"; do
    "$program" run <"$script" >"$work/report"
    { cat "$script" && echo report && cat "$work/report"; } >"$work/audited"
    awk 'NR == 1 { next } /^planes / { exit } { print }' "$work/report" >"$work/order"
    { cat "$script" && echo order && cat "$work/order"; } >"$work/ordered"
    refuse_each run "$script"
    refuse_each check "$script"
    refuse_each replay "$work/ordered"
    refuse_each audit "$work/audited"
    refuse_each ilbm "$work/ordered"
    "$program" ilbm <"$work/ordered" >"$work/picture"
    refuse_each bitmap "$work/picture" b
done
