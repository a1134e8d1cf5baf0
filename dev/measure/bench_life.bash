#!/usr/bin/env bash
# What `dev/measure/bench life` runs: whether the memory of a queue that is tended stays as it is, however long it lives, by runs of the program
# `bench`, which is built first where it isn't there or its sources are newer. With `quick`, fewer than a third of the items: a
# tenth would end before the first checkpoint, and so before the memory is what it stays. With `long`, 100,000,000 handoffs of four
# pairs too, some minutes: eight seats have more receipts at a time, so their memory is compared with nothing.
#
# A row is so many handoffs through one queue, the nanoseconds that one took by the clock, and the most memory that the program had, in
# KiB. Each run's items and their sum are compared with what they must be. The status is 1 where they differ, or the memory of ten times
# as many handoffs is more than 2 MiB above that of the fewer. Then the same at a queue whose threads have
# handles, which compact the log themselves; there as many items are put and polled by one thread as well.
set -euo pipefail
. "$(dirname "$0")/../../bin/built.bash"
few=1000000
[ "${1:-}" = quick ] && few=300000

build bench
work=$(mktemp -d)
trap 'rm -rf "$work"' EXIT

# Runs these words, whose output is to be $work/expected, and leaves the most memory in peak.
measured() {
    python3 - "$work" "$@" <<'END'
import resource, subprocess, sys

work = sys.argv[1]
with open(work + "/told", "w") as told, open(work + "/times", "w") as times:
    status = subprocess.run(sys.argv[2:], stdout=told, stderr=times).returncode
with open(work + "/peak", "w") as peak:
    print(resource.getrusage(resource.RUSAGE_CHILDREN).ru_maxrss, file=peak)
sys.exit(status)
END
    cmp "$work/expected" "$work/told"
    peak=$(cat "$work/peak")
}

# Hands so many items on between so many pairs of threads, and prints a row.
live() {
    local pairs=$1 each=$2 items nanoseconds
    items=$((pairs * each))
    echo "items $items sum $((pairs * each * (each + 1) / 2))" >"$work/expected"
    measured "$(program_of bench)" handoffs "$pairs" "$each" 1
    nanoseconds=$(sed -n 's/^nanoseconds //p' "$work/times")
    printf '%12s %6d %12d %10d\n' "$items" "$pairs" "$((nanoseconds / items))" "$peak"
}

# The same by two threads with handles; then one thread puts and polls as many.
live_handles() {
    printf '%d items handed from thread to thread\n%d items put and polled\n' "$1" "$1" >"$work/expected"
    measured "$(program_of bench)" handles "$1" "$1"
    printf '%12s %6s %12s %10d\n' "$1" handle - "$peak"
}

# Fails if the memory is more than 2 MiB above this.
is_flat() {
    if [ "$peak" -gt $(($1 + 2048)) ]; then
        echo "dev/measure/bench life: the memory grows" >&2
        exit 1
    fi
}

echo "handoffs through one tended queue: $(nproc) processors, $(date -u +%F)"
printf '%12s %6s %12s %10s\n' handoffs pairs nanoseconds KiB
live 1 "$few"
before=$peak
live 1 $((few * 10))
is_flat "$before"
live_handles "$few"
before=$peak
live_handles $((few * 10))
is_flat "$before"
[ "${1:-}" != long ] || live 4 25000000
