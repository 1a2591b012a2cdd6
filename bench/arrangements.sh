#!/bin/sh
# Times arrangements: so many layers of 200 by 200 pixels on a screen of 1024 by 768 with 8 planes, each filled once. They are laid
# over each other in a chain, or all on one place as a stack; or there is just one, which is alone and so covered by nothing. These
# calls are made on each layer in turn:
#
#     front   it is put in front
#     move    it is moved by 3 columns and 2 rows, and back in every second round
#     size    it is made 3 columns wider and 2 rows higher, and in every second round as it was
#     close   it is closed, and another one is created in front of all, with its bounds; the two together count as one call
#
# There are 3,840 calls. But a script has 128 names at most, and each is used once: so there are 112 calls `close` of 16 layers and
# 64 of 64, in ten times as many runs, and they go by 128 slots, where the other calls have one for each layer. Scripts with more
# than 64 names are of version 2. A script is run with the calls and without them, and the row has the difference of the least
# times, and how many calls a second that gives. It ends with status 2 where a script or a call is refused.
#
#     bench/arrangements.sh [PROGRAM [OTHER]] [RUNS]
#
# PROGRAM is the built program; without it, `build` beside this folder proves and builds it first, if it isn't built. OTHER is
# another one, whose times stand behind; the two take turns, run by run. RUNS is how many runs there are of each, 5 without it.
#
# Where Debian's packages xvfb and x11-apps are installed, x11perf's -circulate and -move follow, with 16 windows, on Xvfb with a
# screen of 1024 by 768 and 8 bits a pixel; nothing is installed. Its windows have 8 by 8 pixels and lie in one of 600 by 600. For
# -circulate each lies 2 columns and 2 rows further than the one before it, and the hindmost of those that another one covers is
# raised to the top, so each in turn. For -move they lie apart, 4 columns between them, and each in turn is moved by 1 column and 3
# rows, again from the start where they reach the edge. X keeps no hidden pixels: the server gives what comes into view its
# background, x11perf asks for no events and paints nothing. So both are nearer to simple layers, and far smaller. The time is that
# of the clock, with the requests that x11perf sends many at once and another process reads; of RUNS runs of a second the best counts.
set -eu

bench=$(cd "$(dirname "$0")" && pwd)
runs=5
for word; do
    shift
    case $word in
    '' | 0* | *[!0-9]*) set -- "$@" "$word" ;;
    *) runs=$word ;;
    esac
done
[ $# -le 2 ] || { echo "usage: bench/arrangements.sh [PROGRAM [OTHER]] [RUNS]" >&2; exit 2; }
. "$bench/program.sh"
other=${2:-}
work=$(mktemp -d)
trap 'rm -rf "$work"' EXIT

# The script of a row, with so many rounds of its call.
script() {
    awk -v laid="$laid" -v kind="$kind" -v count="$count" -v call="$call" -v rounds="$1" '
        function create(name, place) {
            x = laid == "stack" ? 400 : (place * 53) % 790
            y = laid == "stack" ? 280 : (place * 37) % 540
            printf "create l%d %s front %d %d %d %d\n", name, kind, x, y, x + 199, y + 199
        }
        BEGIN {
            if (count > 64 || call == "close") print "layers 2"
            print "screen 1024 768 8"
            print "task a"
            for (i = 0; i < count; i++) {
                create(i, i)
                printf "fill l%d 20 20 179 179\n", i
            }
            for (r = 0; r < rounds; r++)
                for (i = 0; i < count; i++)
                    if (call == "front") printf "front l%d\n", i
                    else if (call == "close") {
                        printf "close l%d\n", r * count + i
                        create((r + 1) * count + i, i)
                    } else printf "%s l%d %s\n", call, i, r % 2 == 0 ? "3 2" : "-3 -2"
            print "end"
        }'
}

# Prints the rows of: how the layers are laid, their kind, their number, and the calls. A line of `times` is of one run, and has the
# microseconds of each program without the calls, and then with them.
rows() {
    laid=$1 kind=$2 count=$3
    shift 3
    for call; do
        rounds=$((3840 / count)) times=$runs
        if [ "$call" = close ]; then rounds=$((128 / count - 1)) times=$((runs * 10)); fi
        script 0 >"$work/without"
        script "$rounds" >"$work/with"
        for _ in $(seq "$times"); do
            for calls in without with; do
                for each in "$program" ${other:+"$other"}; do
                    before=$(date +%s%N)
                    "$each" run <"$work/$calls" >"$work/report" || refuse "$each: $(head -n 1 "$work/report")"
                    after=$(date +%s%N)
                    printf '%d ' $(((after - before) / 1000))
                    [ "order $(grep -cx ok "$work/report")" = "$(head -n 1 "$work/report")" ] || refuse "$each refuses a call"
                done
            done
            echo
        done >"$work/times"
        awk -v row="$laid $kind $count $call" -v calls=$((rounds * count)) '
            { for (i = 1; i <= NF; i++) if (NR == 1 || $i < least[i]) least[i] = $i }
            { programs = NF / 2 }
            END {
                printf "%s %d", row, calls
                for (i = 1; i <= programs; i++) {
                    took = least[programs + i] - least[i]
                    printf " %d %d", took, calls * 1000000 / (took > 0 ? took : 1)
                }
                print ""
            }' "$work/times"
    done
}

# Prints the rows of X. A row of x11perf is "N reps @ T msec (R/sec): NAME".
rows_of_x() {
    . "$bench/xvfb.sh"
    serve
    x11perf -display "$display" -time 1 -repeat "$runs" -subs 16 -circulate -move >"$work/x"
    awk -F '[(/]' '
        / reps @ / {
            row = /: Circulate/ ? "chain x11perf 16 circulate" : "apart x11perf 16 move"
            if ($2 + 0 > rate[row] + 0) { rate[row] = $2; calls[row] = $1 }
        }
        END { for (row in rate) printf "%s %d %d %d\n", row, calls[row], calls[row] * 1000000 / rate[row], rate[row] }' "$work/x"
}

load before
echo "laid kind layers call calls microseconds calls-a-second${other:+ microseconds calls-a-second}"
for kind in smart simple; do
    rows chain "$kind" 16 front move size close
    rows chain "$kind" 64 front move size close
    rows chain "$kind" 128 front move size
    rows stack "$kind" 16 front move
    rows stack "$kind" 64 front move
    rows alone "$kind" 1 move
done
if (needs Xvfb:xvfb x11perf:x11-apps) 2>&1; then (rows_of_x); fi
load after
