#!/usr/bin/env bash
# What `dev/measure/bench exchange` runs: measures how many exchanges threads make in a second at an exchanger beside Java's, by runs of the
# program `bench`, which is built first if it isn't there or its sources are newer, and of `bench/ExchangeRace.java` if there is a `javac`.
# With `quick`, a sixteenth of the exchanges, and rough. Each run's items and their sum are compared with what they must be; if they differ
# the status is 1.
#
# A row is a number of threads, 100,000 exchanges in all, each counted at both of its threads. The time is until the last thread but one
# has made its last. A number is the median of five rounds, each at a new exchanger; both take turns, so that what else the machine does
# falls on both. The last lines are the processor's time of a thread that waits a second for a partner, and none comes.
set -euo pipefail
. "$(dirname "$0")/../../bin/built.bash"
exchanges=100000
rounds=5
[ "${1:-}" = quick ] && exchanges=$((exchanges / 16))

build bench
work=$(mktemp -d)
trap 'rm -rf "$work"' EXIT
ways=(exchanger)
command -v javac >/dev/null && javac -d "$work" "$top/bench/ExchangeRace.java" && ways+=(java)

# The command of a round in this way, with this number of threads.
command_of() {
    local threads=$2 each=$((exchanges / $2))
    case $1 in
        exchanger) command=("$(program_of bench)" exchanges "$threads" "$each" 1) ;;
        java) command=(java -cp "$work" ExchangeRace "$threads" "$each" 1) ;;
    esac
}

# Runs a round in this way, and adds its exchanges in a second to those of the way.
run() {
    local threads=$2
    command_of "$@"
    echo "items $threads sum $((threads * (threads + 1) / 2))" >"$work/expected"
    if ! "${command[@]}" >"$work/told" 2>"$work/times" || ! cmp -s "$work/expected" "$work/told"; then
        echo "dev/measure/bench exchange: ${command[*]} says something else" >&2
        diff "$work/expected" "$work/told" >&2 || true
        cat "$work/times" >&2
        return 1
    fi
    awk '$1 == "exchanges" { made = $2 } $1 == "nanoseconds" { printf "%.0f\n", made * 1e9 / $2 }' "$work/times" >>"$work/rates_$1"
}

# The median of the rounds in this way, or a dash where there were none.
median_of() {
    [ -f "$work/rates_$1" ] || { echo -; return; }
    sort -n "$work/rates_$1" | sed -n "$((rounds / 2 + 1))p"
}

echo "exchanges a second, $exchanges in all, the median of $rounds rounds: $(nproc) processors, $(date -u +%F)"
printf '%7s %10s %10s\n' threads exchanger java
for threads in 2 4 8 16; do
    rm -f "$work"/rates_*
    for ((round = 0; round < rounds; round++)); do
        for way in "${ways[@]}"; do
            run "$way" "$threads"
        done
    done
    printf '%7d %10s %10s\n' "$threads" "$(median_of exchanger)" "$(median_of java)"
done

TIMEFORMAT='%U %S'
{ time "$(program_of bench)" alone 1000 >"$work/told"; } 2>"$work/used"
awk '{ printf "a second alone at an exchanger: %.1f ms of the processor, its program included\n", ($1 + $2) * 1000 }' "$work/used"
if [ -f "$work/ExchangeRace.class" ]; then
    java -cp "$work" ExchangeRace alone 1000 2>&1 | awk '{ printf "a second alone at Java'"'"'s: %.1f ms of the processor\n", $2 / 1e6 }'
fi
