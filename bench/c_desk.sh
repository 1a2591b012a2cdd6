#!/bin/sh
# Times the library for C, and prints two tables: calls through the handle beside the same calls in Rattle, which have to leave
# the same screen; and a window of 400 by 300 pixels that is dragged over two others on a screen of 1024 by 768 with 8 bits a
# pixel, beside the same drag by a program of X under Xvfb, where as many rectangles have to be damaged and the same screen be
# left. Of each the best run counts; the time of a call is the processor's, that of a drag the clock's.
#
#     bench/c_desk.sh [LIBRARY BENCHES]
#
# LIBRARY is liblayers.a, with layers.h beside it, and BENCHES the static library of crates/lw_bench_c; without them both are
# proved and built first. The command Xvfb and Xlib have to be there, from Debian's packages xvfb and libx11-dev; nothing is
# installed.
set -eu

bench=$(cd "$(dirname "$0")" && pwd)
top=$(dirname "$bench")
compiler=${CC:-cc}
if [ $# -ne 0 ] && [ $# -ne 2 ]; then
    echo "usage: bench/c_desk.sh [LIBRARY BENCHES]" >&2
    exit 2
fi
. "$bench/xvfb.sh"
if [ $# -eq 0 ]; then
    "$top/build" c >&2
    (cd "$top/crates/lw_bench_c" && rt lib >&2)
    set -- "$top/out/liblayers.a" "$top/crates/lw_bench_c/out/liblw_bench_c.a"
fi
library=$1
benches=$2

compile() {
    program=$1
    shift
    "$compiler" -std=c11 -D_POSIX_C_SOURCE=199309L -O2 -Wall -Wextra -Werror -I"$(dirname "$library")" -o "$work/$program" "$@"
}
compile handle "$bench/desk/handle.c" "$bench/timing.c" "$benches" "$library"
compile drag "$bench/desk/drag.c" "$library"
compile drag_x "$bench/desk/drag_x.c" -lX11

load before
status=0
"$work/handle" || status=1
echo

serve
"$work/drag" >"$work/here"
DISPLAY=$display "$work/drag_x" >"$work/x"
if ! cmp -s -n "$(grep -v '^|' "$work/here" | wc -c)" "$work/here" "$work/x"; then
    echo "bench/c_desk.sh: the two drags leave different screens, or damage different rectangles" >&2
    status=1
fi
echo "| drag | steps a second | microseconds a step |"
echo "|---|---|---|"
grep -h '^|' "$work/here" "$work/x"
load after
exit $status
