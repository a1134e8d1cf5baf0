#!/usr/bin/env bash
# What `dev/measure/bench threads` runs: measures how long it takes threads to hand items on, by runs of the program `bench`, which is built
# first where it isn't there or its sources are newer; beside it, where they are installed, of `bench/Race.java`, of `bench/bare.rs`, of the channels of the
# Rust crate crossbeam-channel (`bench/crossbeam`, also from Debian's librust-crossbeam-channel-dev) and of Go (`bench/race.go`), both of
# capacity 0. With `quick`, a sixteenth of the items, and rough. Each run's items and their sum are compared with what they must be; where
# they differ the status is 1. With `loaded`, 20,000 items beside a busy loop for each processor: the first table alone, by three rounds.
#
# A row is so many threads that put and as many that take, 100,000 items in all. A time is that of the clock from before the first thread
# is started until all have ended, by the item, in nanoseconds; the processor's is that of all threads together. A number is the median of
# twelve rounds, each over a new queue; the programs take turns, so that what else the machine does falls on all of them. Of the tails a
# time is that of one put, from its call to its return: the medians of three rounds. `steady` is `park` over a queue that as many items went
# through before: it makes a checkpoint every 2^14 records, so that what is timed takes no memory that wasn't in use.
set -euo pipefail
. "$(dirname "$0")/../../bin/built.bash"
items=100000
samples=12
ways=(bare park steady fair unfair transfer crossbeam go)
[ "${1:-}" = quick ] && items=$((items / 16)) && samples=3
[ "${1:-}" = loaded ] && items=20000 && samples=3 && ways=(park fair unfair transfer crossbeam go)

build bench
work=$(mktemp -d)
loops=()
trap 'kill "${loops[@]}" 2>/dev/null || true; rm -rf "$work"' EXIT

# Builds what is to be compared with: each is there where its compiler is.
command -v javac >/dev/null && javac -d "$work" "$top/bench/Race.java"
if command -v go >/dev/null; then
    (cd "$work" && cp "$top/bench/race.go" . && GOCACHE=$work/go GOFLAGS=-mod=mod go build -o go_race race.go) || rm -f "$work/go_race"
fi
command -v rustc >/dev/null && rustc -O --edition 2021 -o "$work/bare" "$top/bench/bare.rs"
if command -v cargo >/dev/null; then
    cp -r "$top/bench/crossbeam" "$work/crossbeam"
    debian=/usr/share/cargo/registry
    from=()
    [ -n "$(find "$debian" -maxdepth 1 -name 'crossbeam-channel-0.5*' 2>/dev/null)" ] &&
        from=(--offline --config 'source.crates-io.replace-with="debian"' --config "source.debian.directory=\"$debian\"")
    (cd "$work/crossbeam" && timeout 120 cargo build -q --release "${from[@]}") >"$work/cargo" 2>&1 || true
fi

# The command that runs this way to hand items on; the status is 1 where it isn't installed.
command_of() {
    case $1 in
        park | steady) command=("$(program_of bench)" handoffs) ;;
        bare) [ -x "$work/bare" ] && command=("$work/bare") ;;
        fair | unfair | transfer) [ -f "$work/Race.class" ] && command=(java -cp "$work" Race "$1") ;;
        crossbeam) [ -x "$work/crossbeam/target/release/race" ] && command=("$work/crossbeam/target/release/race") ;;
        go) [ -x "$work/go_race" ] && command=("$work/go_race") ;;
    esac
}

# Runs one round of this command with so many pairs, and what else it is told. Its times are in `times`, and the processor's seconds of its
# process in `used`.
run() {
    local way=$1 pairs=$2 each=$((items / $2))
    shift 2
    echo "items $((pairs * each)) sum $((pairs * each * (each + 1) / 2))" >"$work/expected"
    local TIMEFORMAT='%U %S'
    if ! { time "${command[@]}" "$pairs" "$each" 1 "$@" >"$work/told" 2>"$work/times"; } 2>"$work/used" ||
        ! cmp -s "$work/expected" "$work/told"; then
        echo "dev/measure/bench threads: ${command[*]} $pairs $each 1 $* says something else" >&2
        diff "$work/expected" "$work/told" >&2 || true
        cat "$work/times" >&2
        return 1
    fi
}

# The median of the numbers in a file, or - where there is none.
median_of() {
    if [ ! -s "$1" ]; then printf -- '-'; else sort -n "$1" | awk '{ all[NR] = $1 } END { print all[int((NR + 1) / 2)] }'; fi
}

# One number by another, where both were measured.
ratio() {
    awk -v one="$1" -v other="$2" 'BEGIN { if (one == "-" || other == "-") print "-"; else printf "%.2f", one / other }'
}

# `timeout` ends a loop where this script is killed.
if [ "${1:-}" = loaded ]; then
    for ((loop = 0; loop < $(nproc); loop++)); do
        timeout 1800 bash -c 'while :; do :; done' &
        loops+=($!)
    done
fi

for pairs in 1 2 4 16; do
    handed=$((items / pairs * pairs))
    for ((sample = 0; sample < samples; sample++)); do
        for way in "${ways[@]}"; do
            command_of "$way" || continue
            more=() passes=1
            [ "$way" = steady ] && more=(steady 32768) passes=2
            run "$way" "$pairs" "${more[@]}"
            awk -v items="$handed" '$1 == "nanoseconds" { printf "%.0f\n", $2 / items }' "$work/times" >>"$work/clock.$way.$pairs"
            # A process that warms up first tells the round's own processor time.
            awk -v items="$((handed * passes))" 'FNR == NR { if ($1 == "processor") told = $2; next } { if (!told) told = ($1 + $2) * 1e9 }
                END { printf "%.0f\n", told / items }' "$work/times" "$work/used" >>"$work/busy.$way.$pairs"
        done
    done
done

# A table of what lies in the files of this name, with these ratios, each one way by another.
table() {
    local name=$1 pairs way
    shift
    printf '%5s' pairs
    printf ' %9s' "${ways[@]}"
    printf ' %15s' "$@"
    printf '\n'
    for pairs in 1 2 4 16; do
        printf '%5d' "$pairs"
        for way in "${ways[@]}"; do printf ' %9s' "$(median_of "$work/$name.$way.$pairs")"; done
        for way in "$@"; do
            printf ' %15s' "$(ratio "$(median_of "$work/$name.${way%/*}.$pairs")" "$(median_of "$work/$name.${way#*/}.$pairs")")"
        done
        printf '\n'
    done
}

if [ "${1:-}" = loaded ]; then
    echo "nanoseconds an item beside $(nproc) busy loops, $items items in all, the median of $samples rounds: $(nproc) processors, $(date -u +%F)"
    table clock park/fair park/crossbeam
    exit 0
fi
cat <<END
nanoseconds an item, $items items in all, the median of $samples rounds: $(nproc) processors, $(date -u +%F); fair, unfair and transfer are
Java's. Aims: park/fair at most 0.20, 0.45, 0.90, 0.85, and park/crossbeam 1.10
END
table clock park/fair park/crossbeam steady/crossbeam park/bare
echo "nanoseconds of the processor an item; aim: park/fair at most 1.00"
table busy park/fair park/crossbeam steady/crossbeam

echo "nanoseconds of one put: the median, and what 99 in 100 and 999 in 1,000 didn't exceed; tended with a checkpoint every 2^14 records"
printf '%5s %9s %10s %10s %10s\n' pairs queue median p99 p99.9
for pairs in 2 16; do
    for way in park tended fair crossbeam go; do
        cap=()
        [ "$way" = tended ] && cap=(32768)
        command_of "${way/tended/park}" || continue
        : >"$work/puts"
        for round in 1 2 3; do
            run "$way" "$pairs" tails "${cap[@]}"
            grep '^put ' "$work/times" >>"$work/puts"
        done
        for column in 3 5 7; do awk -v column="$column" '{ print $column }' "$work/puts" >"$work/puts.$column"; done
        printf '%5d %9s %10s %10s %10s\n' "$pairs" "$way" "$(median_of "$work/puts.3")" "$(median_of "$work/puts.5")" "$(median_of "$work/puts.7")"
    done
done
