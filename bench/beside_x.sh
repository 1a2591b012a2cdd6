#!/bin/sh
# Drawing calls here beside the same calls of an X server that draws into memory, in one run. The server is Xvfb, with a screen of
# 1024 by 768 and 8 bits a pixel, and x11perf calls it; here the screen has 8 planes, so a pixel has 8 bits too. Of each the best run
# counts: of three of one second by x11perf, and of nine here (docs/BENCHMARKS.md). x11perf's time is that of the clock, with the
# requests that it sends and the server reads; the time here is that of the processor, for calls in one process. Of a polygon x11perf
# draws the pixels, and the call here works out the rectangles and draws nothing.
#
#     bench/beside_x.sh [PROGRAM]
#
# PROGRAM is the built program of the benchmarks; without it, `bench/run.sh drawing` builds and runs it. The commands Xvfb and
# x11perf have to be there, from Debian's packages xvfb and x11-apps; nothing is installed.
set -eu

bench=$(cd "$(dirname "$0")" && pwd)
. "$bench/xvfb.sh"
needs x11perf:x11-apps

load before
if [ $# -gt 0 ]; then
    "$1" drawing >"$work/here"
    "$1" areas >"$work/areas"
else
    "$bench/run.sh" drawing >"$work/here"
    "$bench/run.sh" areas >"$work/areas"
fi
load between

serve
x11perf -display "$display" -time 1 -repeat 3 -rect10 -rect100 -rect500 -line100 -scroll100 -scroll500 \
    -copywinwin100 -copypixwin100 -triangle100 -complex100 >"$work/x"
load after

# The name of x11perf's call, and that of the call here.
cat >"$work/calls" <<'END'
10x10 rectangle|fill of 10 by 10
100x100 rectangle|fill of 100 by 100
500x500 rectangle|fill of 500 by 500
100-pixel line|line of 100 pixels
Scroll 100x100 pixels|scroll of 100 by 100 by (0, 1)
Scroll 500x500 pixels|scroll of 500 by 500 by (0, 1)
Copy 100x100 from window to window|blit of 100 by 100 within a layer
Copy 100x100 from pixmap to window|blit of 100 by 100 from a bitmap
Fill 100x100 equivalent triangle|triangle of 10,000 pixels
Fill 100x100 equivalent complex polygons|arrowhead of 10,000 pixels
END

# A row of x11perf is "N reps @ T msec (R/sec): NAME", and one of the table here "| NAME | PLANES | BYTES | CALLS A SECOND | ..".
awk -v here="$work/here" -v areas="$work/areas" -v x="$work/x" '
    BEGIN {
        while ((getline row < here) > 0) {
            if (split(row, part, / *\| */) > 5 && part[3] == 8) ours[part[2]] = part[5]
        }
        while ((getline row < areas) > 0) {
            if (split(row, part, / *\| */) > 7) ours[part[2]] = part[7]
        }
        while ((getline row < x) > 0) {
            if (row ~ / reps @ .*\/sec\): /) {
                name = row; sub(/.*\/sec\): */, "", name)
                rate = row; sub(/\/sec\).*/, "", rate); sub(/.*\(/, "", rate)
                if (rate + 0 > theirs[name] + 0) theirs[name] = rate
            }
        }
        FS = "|"
        print "| x11perf | calls a second | here, 8 planes | calls a second | here to X |"
        print "|---|---|---|---|---|"
    }
    {
        if (!($1 in theirs) || !($2 in ours)) { print "no time of: " $1 ", " $2; missing = 1; next }
        printf "| %s | %.0f | %s | %.0f | %.2f |\n", $1, theirs[$1], $2, ours[$2], ours[$2] / theirs[$1]
    }
    END { exit missing }
' "$work/calls"
