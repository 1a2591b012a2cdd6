#!/bin/sh
# Shows that wrong bodies are refused which the gate doesn't try: those that tests refuse, and those that proofs do.
#
# The tests of threads and locks refuse the first kind. Each patch of bench/wrong-bodies makes one of the code. It is made on
# a copy of the crates, where the tests of one module are run with no proof (`rt try --test`): those that are named for the patch have
# to fail, and no other. Without a patch, all of them have to pass. It prints a line for each, and ends with status 1 at the first that
# isn't so; the copy and what `rt` wrote are then kept.
#
#     bench/wrong_bodies.sh [NAME ..]
#
# NAME is a patch, as two_locks_by_parity; without it, all are tried. Each takes some minutes, and one whose tests wait in vain for a
# call that is held up takes longest.
#
#     bench/wrong_bodies.sh edits CRATE ..
#
# Proofs refuse the second kind. The gate tries the edits of `must-fail` alone, for its time; a crate's others are
# bench/wrong-bodies/CRATE/*.edit. They are tried on a copy as those of `must-fail` are, for whoever has changed the crate.
#
# The patches:
#
# - one_lock_before_the_gate: each call but those on registers takes one lock first of all.
# - one_lock_after_the_gate: the same round the call's step, once its own locks are held and the gate was told so.
# - two_locks_by_parity: each call first takes a lock that all even slots share, or all odd ones, or both.
# - the_gate_is_told_before_the_lock: a call on one layer tells that it is under its lock before it takes it.
# - a_replay_beside_threads: the threads make all calls under their locks and tell the gate, on a desk with other hooks. The answers
#   come from a replay of another order on a thread beside them.
# - exchanged_where_not_closed: where `close` runs out of memory for the cells, it exchanges what lies behind the first two locks.
#
# The last one shows where an allocation fails. ROOM is the number of the first allocation of `close` in its test. Without the patch
# the test passes where this one fails or one of the two after it, and ends with an error where the one before it fails.
set -eu

ROOM=83

bench=$(cd "$(dirname "$0")" && pwd)
top=$bench/..
work=$(mktemp -d)

fail() {
    echo "bench/wrong_bodies.sh: $1; see $work" >&2
    exit 1
}

# A copy of the crates with a patch, or as they are where the name is `none`.
copy() {
    rm -rf "$work/copy"
    mkdir -p "$work/copy/crates"
    cp "$top/crates.txt" "$top/HANDLES" "$work/copy"
    for from in "$top"/crates/*; do
        into=$work/copy/crates/${from##*/}
        mkdir "$into"
        for part in src specs proofs; do
            [ ! -d "$from/$part" ] || cp -R "$from/$part" "$into"
        done
    done
    [ "$1" = none ] || (cd "$work/copy" && patch -s -p1 <"$bench/wrong-bodies/$1.patch") ||
        fail "$1 can't be made"
}

# Runs tests of a crate of the copy: crate, module or test, and what `rt try` is told beside. The tests that failed, in their order.
failed() {
    crate=$1 tests=$2
    shift 2
    (cd "$work/copy/crates/$crate" && rt try --test --seconds 300 "$@" -- "$tests" >"$work/said" 2>&1) || true
    grep -q '^test result: ' "$work/said" || fail "no test of $crate was run"
    sed -n 's/^test [a-z_]*::\([a-z_]*\) \.\.\..*FAILED.*/\1/p' "$work/said" | tr '\n' ' '
}

# Name of the patch, crate, module, and the tests that have to fail.
try() {
    name=$1 crate=$2 module=$3
    shift 3
    copy "$name"
    told=$(failed "$crate" "$module")
    due=${*:+"$* "}
    [ "$told" = "$due" ] || fail "$name: of $crate::$module fail: ${told:-none}"
    echo "$name: of $crate::$module fail: ${told:-none}"
}

# Name of the patch, number of the allocation that fails, and whether the test fails.
try_closing() {
    copy "$1"
    told=$(failed lw_desk_tests tests_closing --fail-alloc "$2")
    [ "$told" = "$3" ] || fail "$1 with allocation $2 failing: of lw_desk_tests::tests_closing fail: ${told:-none}"
    echo "$1 with allocation $2 failing: of lw_desk_tests::tests_closing fail: ${told:-none}"
}

# Tries the edits of crates that the gate leaves out.
edits() {
    copy none
    for crate in "$@"; do
        mkdir "$work/copy/crates/$crate/must-fail"
        cp "$bench/wrong-bodies/$crate"/*.edit "$work/copy/crates/$crate/must-fail"
    done
    (cd "$work/copy" && rt must-fail "$@") || fail "not all edits are refused"
}

one() {
    case $1 in
    none)
        try none lw_thread_tests tests_threads
        try none lw_desk_tests tests_
        ;;
    one_lock_before_the_gate)
        try "$1" lw_thread_tests tests_threads a_fill_goes_on_while_another_layer_is_held other_calls_go_on_while_a_layer_is_held
        ;;
    one_lock_after_the_gate)
        try "$1" lw_thread_tests tests_threads
        try "$1" lw_desk_tests tests_overlap fills_of_two_layers_are_made_at_once
        ;;
    two_locks_by_parity)
        try "$1" lw_desk_tests tests_overlap
        try "$1" lw_thread_tests tests_threads other_calls_go_on_while_a_layer_is_held
        ;;
    the_gate_is_told_before_the_lock)
        try "$1" lw_thread_tests tests_threads a_layer_is_held_by_one_call_at_a_time
        ;;
    a_replay_beside_threads)
        try "$1" lw_thread_tests tests_threads a_hook_is_used_while_its_creation_is_made
        ;;
    exchanged_where_not_closed)
        test=a_desk_that_was_not_closed_is_as_it_was
        try_closing none $((ROOM - 1)) "$test "
        try_closing none "$ROOM" ""
        try_closing none $((ROOM + 1)) ""
        try_closing none $((ROOM + 2)) ""
        try_closing "$1" $((ROOM + 1)) "$test "
        ;;
    *) fail "no patch $1" ;;
    esac
}

if [ "${1:-}" = edits ]; then
    shift
    edits "$@"
    rm -rf "$work"
    exit
fi
[ $# -gt 0 ] || set -- none one_lock_before_the_gate one_lock_after_the_gate two_locks_by_parity \
    the_gate_is_told_before_the_lock a_replay_beside_threads exchanged_where_not_closed
for name in "$@"; do
    one "$name"
done
rm -rf "$work"
