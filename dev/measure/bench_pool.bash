#!/usr/bin/env bash
# What `dev/measure/bench pool` runs: measures how long it takes a pool to run jobs, by runs of the program `bench`, which is built first
# where it isn't there or its sources are newer, and of `bench/PoolRace.java` where there is a `java`. With `quick`, a tenth of the jobs,
# and rough. Where not all jobs of a round ran the status is 1.
#
# A row is so many callers that hand 100,000 jobs in, all together, to a pool as those of `Executors.newFixedThreadPool`, with as many
# workers as there are processors, or of `newCachedThreadPool`, here of at most 1,024 callers and workers. A job is empty, or works for 10 microseconds.
# A time is that of the clock from before the first call until the pool has ended, by the job, in nanoseconds: the median of nine rounds,
# each over a new pool, behind two that aren't told. The last columns are the ratio to Java's, and how many jobs in a hundred their callers
# ran here, since there were as many workers as there may be. Memory that one round gave back the next one finds in the process, as it does
# in Java's heap: the C library is told so by its settings.
#
# `dev/measure/bench pool causes` prints what the system counted of such rounds by the job, ours and Java's, where there is `perf`: switches of
# threads, wakes, calls of `futex` and of `sched_yield`, and page faults. Java's are those of its whole process, its start too.
#
# `dev/measure/bench pool life` hands 1,000,000 and 10,000,000 empty jobs to a pool of one worker that is tended and keeps at most 1,024 jobs,
# of which its caller runs those that find no room, and prints the most memory that each took: they may differ by 4 MiB. With more workers
# the worst moment, in which one of them did most, comes late, so that is compared with nothing.
set -euo pipefail
. "$(dirname "$0")/../../bin/built.bash"
jobs=100000
rounds=9
untold=2
workers=$(nproc)
# What was given back stays in the process, however much it is.
keeps=(env MALLOC_TRIM_THRESHOLD_=4294967296 MALLOC_MMAP_THRESHOLD_=4294967296 MALLOC_TOP_PAD_=67108864)
[ "${1:-}" = quick ] && jobs=$((jobs / 10))

build bench
program=$(program_of bench)
work=$(mktemp -d)
trap 'rm -rf "$work"' EXIT

# The most memory that so many jobs of one caller take, in KiB: the least of three runs, since it differs by some MiB with how far the
# worker was behind at its worst.
memory_of() {
    local run
    for run in 1 2 3; do
        /usr/bin/env time -f %M "$program" jobs bounded 1 1 "$1" 0 1 2>"$work/times" >"$work/told"
        [ "$(cat "$work/told")" = "jobs $1 of $1" ] || return 1
        tail -n 1 "$work/times"
    done | sort -n | head -n 1
}

if [ "${1:-}" = life ]; then
    few=$(memory_of 1000000)
    many=$(memory_of 10000000)
    echo "$few KiB after 1,000,000 jobs, $many KiB after 10,000,000"
    [ "$many" -le $((few + 4096)) ] || { echo "it grows"; exit 1; }
    exit 0
fi

# Runs this command once, which holds so many rounds more than are told, and prints what the system counted of it by the job, one number
# an event.
counts_of() {
    local more=$1 pool=$2 callers=$3 lasts=$4 each
    shift 4
    each=$((jobs / callers))
    perf stat -x, -o "$work/counts" -e "$events" "$@" "$pool" "$workers" "$callers" "$each" "$lasts" "$rounds" >"$work/told" 2>"$work/times"
    awk -F, -v jobs=$(((rounds + more) * each * callers)) '/^[0-9]/ { printf " %9.3f", $1 / jobs }' "$work/counts"
}

if [ "${1:-}" = causes ]; then
    command -v perf >/dev/null || { echo "dev/measure/bench pool causes: there is no perf here (Debian: linux-perf)" >&2; exit 1; }
    events=sched:sched_switch,sched:sched_wakeup,syscalls:sys_enter_futex,syscalls:sys_enter_sched_yield,page-faults
    echo "by the job: $workers processors, $(date -u +%F)"
    printf '%8s %8s %7s %5s %9s %9s %9s %9s %9s\n' work pool callers whose switches wakes futex yields faults
    for lasts in 0 10000; do
        for pool in fixed cached; do
            for callers in 1 4 16; do
                printf '%8s %8s %7s %5s' "$lasts" "$pool" "$callers" ours
                counts_of 0 "$pool" "$callers" "$lasts" "${keeps[@]}" "$program" jobs
                echo
                command -v java >/dev/null || continue
                printf '%8s %8s %7s %5s' "$lasts" "$pool" "$callers" "Java"
                counts_of "$untold" "$pool" "$callers" "$lasts" java "$top/bench/PoolRace.java"
                echo
            done
        done
    done
    exit 0
fi

# Runs this command with a pool of this name, so many callers and jobs that last so long, and prints the nanoseconds a job, the median
# of the rounds. The first number says how many rounds the command is to hold, of which the last ones count.
cost_of() {
    local held=$1 pool=$2 callers=$3 lasts=$4 each round
    shift 4
    each=$((jobs / callers))
    for ((round = 0; round < held; round++)); do
        echo "jobs $((callers * each)) of $((callers * each))"
    done >"$work/expected"
    if ! "$@" "$pool" "$workers" "$callers" "$each" "$lasts" "$held" \
        >"$work/told" 2>"$work/times" || ! cmp -s "$work/expected" "$work/told"; then
        echo "dev/measure/bench pool: $* $pool with $callers callers says something else" >&2
        diff "$work/expected" "$work/told" >&2 || true
        cat "$work/times" >&2
        return 1
    fi
    tail -n "$rounds" "$work/times" | awk '{ here += $4 } END { print here + 0 }' >"$work/here"
    tail -n "$rounds" "$work/times" | sed -n 's/^nanoseconds \([0-9]*\).*/\1/p' | sort -n | sed -n "$((rounds / 2 + 1))p" |
        awk -v jobs=$((callers * each)) '{ printf "%.0f", $1 / jobs }'
}

# Java's program holds two rounds of its own before the first.
cost_in_java() {
    command -v java >/dev/null || { printf -- '-'; return; }
    cost_of "$rounds" "$1" "$2" "$3" java "$top/bench/PoolRace.java"
}

# One cost by another, where both were measured.
ratio() {
    awk -v one="$1" -v other="$2" 'BEGIN { if (one == "-" || other == "-") print "-"; else printf "%.2f", one / other }'
}

cat <<END
nanoseconds a job, $jobs jobs in all, the median of $rounds rounds: $workers processors, $(date -u +%F), $(java -version 2>&1 | head -n 1 || true)
aims by Java's: 10 microseconds of work at most 1.10; empty jobs at most 2.00 of a fixed pool, 1.00 of a cached one
END
printf '%8s %8s %6s %8s %8s %8s %12s\n' work pool callers here Java ratio 'by callers'
for lasts in 0 10000; do
    for pool in fixed cached; do
        for callers in 1 2 4 16; do
            here=$(cost_of $((rounds + untold)) "$pool" "$callers" "$lasts" "${keeps[@]}" "$program" jobs)
            own=$(awk -v all=$((rounds * (jobs / callers) * callers)) '{ printf "%.1f", 100 * $1 / all }' "$work/here")
            java=$(cost_in_java "$pool" "$callers" "$lasts")
            printf '%8s %8s %6d %8s %8s %8s %12s\n' "$lasts" "$pool" "$callers" "$here" "$java" "$(ratio "$here" "$java")" "$own"
        done
    done
done
