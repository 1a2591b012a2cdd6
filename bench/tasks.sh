#!/bin/sh
# Times tasks on threads: 16 tasks of 4,000 calls each, each task on a layer of its own, on a screen of 1024 by 768 with 8
# planes, on 1, 2 and 4 processors. The layers are smart ones of 256 by 192 pixels, side by side. The calls are fills of 32 by 32
# pixels in changing places, or nine such fills and then `front` of the same layer, and so on. Beside them stand 4,000 such calls
# of one task on the same 16 layers, the first 250 on the first one, since a task has at most 4,096 calls; and `replay` of the
# 16 tasks in an order that `run` took: one thread and no lock. The replay has to give the report of that run.
#
#     bench/tasks.sh [PROGRAM]
#
# PROGRAM is the built program; without it, `build` beside this folder proves and builds it first, if it isn't built.
#
# Each time is the least of 20 runs, and of 50 for the one task, which is short; the least time of the same script without these
# calls is taken off. It is printed with the calls a second that it gives, and the ratios of that to the run of 16 tasks on one
# processor and to the one task. One thread reads the lines, a replay's order too, and writes the order and the replies, and that
# is part of the time. After the bar the same stands without the reading; the writing is within it. The time of the reading
# is that of `replay` with a bad order, which is too short, or for the row of `replay` too long: it reads all and makes no call.
set -eu

bench=$(cd "$(dirname "$0")" && pwd)
work=$(mktemp -d)
trap 'rm -rf "$work"' EXIT

fail() {
    echo "bench/tasks.sh: $1" >&2
    exit 1
}

. "$bench/program.sh"
[ -x "$program" ] || fail "$program isn't there"

# A script: number of tasks, kind of calls (fills or fronts), calls of each task.
script() {
    awk -v tasks="$1" -v kind="$2" -v calls="$3" '
        function create(l) {
            x = l % 4 * 256
            y = int(l / 4) * 192
            printf "create l%d smart front %d %d %d %d\n", l, x, y, x + 255, y + 191
        }
        BEGIN {
            print "screen 1024 768 8"
            for (t = 0; t < tasks; t++) {
                printf "task t%d\n", t
                if (tasks > 1) create(t)
                else for (l = 0; l < 16; l++) create(l)
                for (i = 0; i < calls; i++) {
                    l = tasks > 1 ? t : int(i * 16 / calls)
                    x = i * 53 % 224
                    y = i * 37 % 160
                    if (kind == "fronts" && i % 10 == 9) printf "front l%d\n", l
                    else printf "fill l%d %d %d %d %d\n", l, x, y, x + 31, y + 31
                }
                print "end"
            }
        }'
}

# A script with an order: a script, and a report that has the order.
ordered() {
    cat "$1"
    echo order
    awk 'NR == 1 { next } /^planes / { exit } { print }' "$2"
}

# Runs a command: processors, command, its input, its output, its status.
command_on() {
    status=0
    taskset -c "0-$(($1 - 1))" "$program" "$2" <"$3" >"$4" || status=$?
    [ "$status" -eq "$5" ] || fail "the status of $2 was $status in place of $5"
}

# The least time of a command, in microseconds: runs, processors, command, its input, its status.
least() {
    best=
    left=$1
    while [ "$left" -gt 0 ]; do
        left=$((left - 1))
        before=$(date +%s%N)
        command_on "$2" "$3" "$4" /dev/null "$5"
        after=$(date +%s%N)
        took=$(((after - before) / 1000))
        if [ -z "$best" ] || [ "$took" -lt "$best" ]; then best=$took; fi
    done
    echo "$best"
}

# The same, less the time without the calls; the input is NAME.with with them and NAME.without without them.
least_of_calls() {
    with=$(least "$1" "$2" "$3" "$4.with" "$5")
    without=$(least "$1" "$2" "$3" "$4.without" "$5")
    echo $((with - without))
}

# Makes the inputs of a kind of calls: the scripts of one task and of many, the replay of the many, and the inputs that are only
# read, each with and without the calls.
make_inputs() {
    for calls in with without; do
        number=4000
        if [ $calls = without ]; then number=0; fi
        for tasks in 1 16; do
            script "$tasks" "$1" "$number" >"$work/$tasks.$calls"
            command_on "$most" run "$work/$tasks.$calls" "$work/report" 0
            { cat "$work/$tasks.$calls" && echo order && echo 0; } >"$work/read$tasks.$calls"
        done
        ordered "$work/16.$calls" "$work/report" >"$work/replay.$calls"
        command_on 1 replay "$work/replay.$calls" "$work/replayed" 0
        cmp -s "$work/report" "$work/replayed" || fail "the report of run differs from that of replay in its order"
        { cat "$work/replay.$calls" && echo 0; } >"$work/readreplay.$calls"
    done
}

# Prints rows with their ratios. A row has its kind of calls, command, tasks, processors, calls, microseconds, and those of the
# reading. The first one is that of one task, and the second that of 16 tasks on one processor.
printed() {
    awk '
        function ratio(a, b) { return a && b ? sprintf("%.2f", a / b) : "-" }
        function a_second(calls, took) { return took > 0 ? calls * 1000000 / took : 0 }
        {
            all = a_second($5, $6)
            unread = a_second($5, $6 - $7)
            if ($3 == 1) { task_all = all; task_unread = unread }
            if (NR == 2) { one_all = all; one_unread = unread }
            printf "%s %s %d %d %d ", $1, $2, $3, $4, $5
            printf "%d %d %s %s | ", $6, all, ratio(all, one_all), ratio(all, task_all)
            printf "%d %d %s %s\n", $6 - $7, unread, ratio(unread, one_unread), ratio(unread, task_unread)
        }' "$1"
}

# A row is measured and kept: runs, kind of calls, command, tasks, processors, its inputs, and those that are only read.
measure() {
    took=$(least_of_calls "$1" "$5" "$3" "$work/$6" 0)
    read=$(least_of_calls "$1" "$5" replay "$work/$7" 8)
    echo "$2 $3 $4 $5 $(($4 * 4000)) $took $read" >>"$work/rows"
}

# How many of 1, 2 and 4 processors there are, numbered from 0.
processors=
for count in 1 2 4; do
    if [ "$(taskset -c "0-$((count - 1))" nproc)" -eq "$count" ]; then
        processors="$processors $count"
        most=$count
    fi
done
[ -n "$processors" ] || fail "processor 0 isn't there for it"

load before
echo "kind command tasks processors calls microseconds calls-a-second to-one-processor to-one-task |" \
    "unread-microseconds calls-a-second to-one-processor to-one-task"
for kind in fills fronts; do
    make_inputs "$kind"
    : >"$work/rows"
    measure 50 "$kind" run 1 1 1 read1
    for count in $processors; do
        measure 20 "$kind" run 16 "$count" 16 read16
    done
    measure 20 "$kind" replay 16 1 replay readreplay
    printed "$work/rows"
done
load after
