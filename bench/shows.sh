#!/bin/sh
# Times the largest show: eight scenes of 2048 by 2048 pixels with 8 planes on a display of 2048 by 2048, each filled and then
# painted over by 16 fills, and 4,096 drags, by which the screens change places. It prints the seconds that `display` took, the same
# without the drags, and the size of what is written.
#
#     bench/shows.sh [PROGRAM]
#
# PROGRAM is the built program; without it, `build` beside this folder proves and builds it first, if it isn't built.
set -eu

bench=$(cd "$(dirname "$0")" && pwd)
. "$bench/program.sh"
work=$(mktemp -d)
trap 'rm -rf "$work"' EXIT

# A show with so many drags.
show() {
    awk -v drags="$1" 'BEGIN {
        print "display 2048 2048"
        for (s = 0; s < 8; s++) {
            printf "scene %c %d\nlayers 2\nscreen 2048 2048 8\ntask t\n", 97 + s, s * 200
            print "create w smart front 0 0 2047 2047"
            order = "0"
            for (i = 0; i < 17; i++) {
                printf "apen w %d\nfill w %d %d 2047 2047\n", (s * 31 + i * 7) % 255 + 1, i * 100, i * 50
                order = order " 0 0"
            }
            print "end\norder\n" order "\nendscene"
        }
        for (i = 0; i < drags; i++) printf "drag %c %d\n", 97 + i % 8, i % 3 == 0 ? 97 : -53
    }'
}

timed() {
    before=$(date +%s%N)
    "$program" display <"$work/show" >"$work/shown"
    after=$(date +%s%N)
    echo "$1: $(((after - before) / 1000000)) milliseconds, $(wc -c <"$work/shown") bytes"
}

load before
show 0 >"$work/show"
timed "no drag"
show 4096 >"$work/show"
timed "4,096 drags"
load after
