#!/bin/sh
# Times the largest script of version 2: 16 tasks of 16,384 calls each, most of them fills, on 16 layers of 2048 by 2048 pixels
# with 8 planes, a layer for each task; the frontmost covers the others. Places below 10 keep the script within the input's limit.
# It prints the seconds that `run` took, the most memory that it held (by the kernel's VmHWM, read every tenth of a second), and
# the size of the script and of the report.
#
#     bench/largest.sh [PROGRAM]
#
# PROGRAM is the built program; without it, `build` beside this folder proves and builds it first, if it isn't built.
set -eu

bench=$(cd "$(dirname "$0")" && pwd)
. "$bench/program.sh"
work=$(mktemp -d)
trap 'rm -rf "$work"' EXIT

awk 'BEGIN {
    print "layers 2"
    print "screen 2048 2048 8"
    for (t = 0; t < 16; t++) {
        name = sprintf("%c", 97 + t)
        print "task " name
        print "create " name " smart front 0 0 2047 2047"
        print "apen " name " " (t * 15 + 1)
        for (i = 0; i < 16382; i++) {
            print "fill " name " " i % 9 " " int(i / 9) % 9 " 9 9"
        }
        print "end"
    }
}' >"$work/script"

load before
before=$(date +%s%N)
"$program" run <"$work/script" >"$work/report" &
run=$!
most=0
while kill -0 "$run" 2>/dev/null; do
    now=$(sed -n 's/^VmHWM:[[:space:]]*\([0-9]*\) kB$/\1/p' "/proc/$run/status" 2>/dev/null || true)
    if [ -n "$now" ]; then most=$now; fi
    sleep 0.1
done
status=0
wait "$run" || status=$?
after=$(date +%s%N)
echo "status $status"
echo "seconds $(((after - before) / 1000000000)).$(printf %03d $(((after - before) / 1000000 % 1000)))"
echo "most memory, MiB $((most / 1024))"
echo "script, bytes $(wc -c <"$work/script")"
echo "report, bytes $(wc -c <"$work/report")"
load after
