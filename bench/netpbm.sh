#!/bin/sh
# Sees that netpbm takes the pictures that the program writes, and the program those that netpbm writes, pixel for pixel.
#
# Each script of examples/ is run, and its order cut from the report and put after it, as bench/replays.sh does. `replay` writes
# the report of that order and `ilbm` the screen; of the screen `ilbmtoppm` makes a picture, which has to have the pens of the
# report's planes. Then `ppmtoilbm` makes ILBM files, compressed and not, of a picture of 320 by 200 pixels with 16 colours, in 4
# planes: `bitmap` has to give rows whose pens have the picture's colours by the colour map of the file. It prints a line for each
# picture, and ends with status 1 at the first that isn't the same; it then keeps its files and tells where they are.
#
#     bench/netpbm.sh [PROGRAM]
#
# PROGRAM is the built program; without it, `build` beside this folder proves and builds it first, if it isn't built. The commands
# ilbmtoppm and ppmtoilbm have to be there, from Debian's package netpbm; nothing is installed.
set -eu

bench=$(cd "$(dirname "$0")" && pwd)
. "$bench/common.sh"
needs ilbmtoppm:netpbm ppmtoilbm:netpbm
. "$bench/program.sh"

work=$(mktemp -d)

fail() {
    echo "bench/netpbm.sh: $1; see $work" >&2
    exit 1
}

for script in "$bench"/../examples/*.layers; do
    name=$(basename "$script" .layers)
    # The script, a line `order`, and what stands in its report between the first line, which counts the calls, and the planes.
    cp "$script" "$work/$name.input"
    if [ -n "$(tail -c 1 "$script")" ]; then echo >>"$work/$name.input"; fi
    echo order >>"$work/$name.input"
    "$program" run <"$script" >"$work/$name.run" || fail "run of $name ended with status $?"
    awk 'NR == 1 { next } /^planes / { exit } { print }' "$work/$name.run" >>"$work/$name.input"
    "$program" replay <"$work/$name.input" >"$work/$name.report" || fail "replay of $name ended with status $?"
    "$program" ilbm <"$work/$name.input" >"$work/$name.ilbm" || fail "ilbm of $name ended with status $?"
    ilbmtoppm "$work/$name.ilbm" >"$work/$name.ppm" 2>"$work/$name.said" || fail "ilbmtoppm of $name ended with status $?"
    "$bench/pens.py" screen "$work/$name.report" "$work/$name.ppm" || fail "$name is another picture"
    echo "$name: ilbmtoppm shows the screen of the report"
done

"$bench/pens.py" make >"$work/made.ppm"
for kind in compress nocompress; do
    ppmtoilbm -fixplanes 4 "-$kind" "$work/made.ppm" >"$work/$kind.ilbm" 2>"$work/$kind.said" ||
        fail "ppmtoilbm -$kind ended with status $?"
    "$program" bitmap made <"$work/$kind.ilbm" >"$work/$kind.bitmap" || fail "bitmap of $kind.ilbm ended with status $?"
    "$bench/pens.py" colours "$work/$kind.bitmap" "$work/$kind.ilbm" "$work/made.ppm" || fail "$kind.ilbm is another picture"
    echo "$kind.ilbm: bitmap has the picture of ppmtoilbm"
done
rm -r "$work"
