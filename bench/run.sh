#!/bin/sh
# Builds the static library and the benchmarks, and runs them. An argument, `regions`, `rows`, `areas`,
# `pictures` or `drawing`, runs one of the five alone.
set -eu

bench=$(cd "$(dirname "$0")" && pwd)
crate=$bench/../crates/lw_bench_c
built=$crate/out/bench
compiler=${CC:-cc}

. "$bench/common.sh"
command -v rt >/dev/null || refuse "the command rt is not there"
pkg-config --exists pixman-1 2>/dev/null ||
    refuse "pixman's library is not there; its package is libpixman-1-dev (apt-get install libpixman-1-dev)"

# The library takes its memory from the C library, through this file of the toolchain.
heap=$(dirname "$(rt doc)")/c/liblibc_c.a

(cd "$crate" && rt lib >&2)
mkdir -p "$built"
# shellcheck disable=SC2046
"$compiler" -std=c11 -D_POSIX_C_SOURCE=199309L -O2 -Wall -Wextra $(pkg-config --cflags pixman-1) \
    -o "$built/bench" "$bench"/*.c "$crate/out/liblw_bench_c.a" "$heap" $(pkg-config --libs pixman-1)

load before
status=0
"$built/bench" "$@" || status=$?
load after
exit $status
