#!/usr/bin/env bash
# What `dev/measure/bench checkpoint` runs: how long a checkpoint holds its queue, and what a step costs after one, by runs of the program
# `bench`, which is built first if it isn't there or its sources are newer. With `quick`, a tenth of the rounds.
#
# A row is a transfer queue with this number of seats, which buffers this number of items. One seat makes all calls, in one thread. In
# each round it puts an item and takes one, 16 times, and then makes a checkpoint, which compacts these 32 records. The columns are the
# median of the checkpoints, what 99 in 100 of them didn't exceed, and the medians of the first put and of the first take of a round: these
# find little of the queue in the processor's caches if a checkpoint went over much. All are nanoseconds by the clock, from call to return,
# of which a look at the clock is a part: a checkpoint holds the lock for no longer. Each run's items, what is left and how many records
# were compacted are compared with what they must be; if they differ the status is 1.
set -euo pipefail
. "$(dirname "$0")/../../bin/built.bash"
share=1
[ "${1:-}" = quick ] && share=10

build bench
work=$(mktemp -d)
trap 'rm -rf "$work"' EXIT

# Makes checkpoints of a queue with these seats that buffers these items, and prints a row.
measure() {
    local seats=$1 kept=$2 rounds=$(($3 / share)) items sum left
    items=$((rounds * 16))
    sum=$((items * (items + 1) / 2))
    left=$((kept * items + kept * (kept + 1) / 2))
    echo "taken $items sum $sum left $kept sum $left gone $((kept + items * 2))" >"$work/expected"
    if ! "$(program_of bench)" checkpoints "$seats" "$kept" "$rounds" >"$work/printed" 2>"$work/times" ||
        ! cmp -s "$work/expected" "$work/printed"; then
        echo "dev/measure/bench checkpoint: bench checkpoints $seats $kept $rounds prints something else" >&2
        diff "$work/expected" "$work/printed" >&2 || true
        cat "$work/times" >&2
        return 1
    fi
    awk -v seats="$seats" -v kept="$kept" -v rounds="$rounds" '
        { median[$1] = $3; most[$1] = $5 }
        END { printf "%6d %8d %11d %11d %11d %11d %11d\n", seats, kept, rounds, median["checkpoint"], most["checkpoint"], median["put"], median["take"] }' \
        "$work/times"
}

echo "nanoseconds of checkpoints, and of the first steps after them: $(nproc) processors, $(date -u +%F)"
printf '%6s %8s %11s %11s %11s %11s %11s\n' seats buffered checkpoints median p99 'put after' 'take after'
measure 64 0 10000
measure 65536 0 1000
measure 64 1000000 200
