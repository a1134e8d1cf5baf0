#!/usr/bin/env bash
# What `dev/measure/bench withdrawals` runs: how long it takes to take a request back from the middle of a wait queue, by runs of the program
# `bench`, which is built first where it isn't there or its sources are newer. With `quick`, a tenth of the rounds.
#
# A row is a fair queue with so many seats, each with a request that waits. One thread makes all calls. The columns are the median of the
# withdrawals, and what 99 in 100 and 999 in 1,000 of them didn't exceed, in nanoseconds by the clock, from call to return, of which a look at
# the clock is a part. How many requests were taken back, and how many records there are, is compared with what it must be; where that differs the
# status is 1.
set -euo pipefail
. "$(dirname "$0")/../../bin/built.bash"
rounds=20000
[ "${1:-}" = quick ] && rounds=2000

build bench
work=$(mktemp -d)
trap 'rm -rf "$work"' EXIT

echo "nanoseconds of withdrawals: $(nproc) processors, $(date -u +%F)"
printf '%8s %11s %11s %11s %11s\n' waiting rounds median p99 p999
for waiting in 16 1024 65536; do
    echo "taken back $rounds records $((waiting + 2 * rounds))" >"$work/expected"
    if ! "$(program_of bench)" withdrawals "$waiting" "$rounds" >"$work/told" 2>"$work/times" ||
        ! cmp -s "$work/expected" "$work/told"; then
        echo "dev/measure/bench withdrawals: bench withdrawals $waiting $rounds prints something else" >&2
        diff "$work/expected" "$work/told" >&2 || true
        cat "$work/times" >&2
        exit 1
    fi
    awk -v waiting="$waiting" -v rounds="$rounds" '{ printf "%8d %11d %11d %11d %11d\n", waiting, rounds, $3, $5, $7 }' "$work/times"
done
