# Read by the scripts beside this one, with `.`, after they set `bench` to this folder: `program` is the built program, the first
# argument of the script or, without it, what `build` makes, which proves and builds it first if it isn't built.
. "$bench/common.sh"
if [ $# -gt 0 ]; then
    program=$1
else
    "$bench/../build" >&2
    program=$bench/../out/layers
fi
