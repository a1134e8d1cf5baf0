#!/usr/bin/env bash
# What `dev/measure/bench texts` runs: measures what `meet run`, `meet check`, `meet check --erase` (told as `erase`) and `meet sum` take for a
# record, of texts of 2^16 and of 2^20 records, by runs of the program `meet`, which is built first where it isn't there or its sources
# are newer. Further programs, named behind `texts`, are run on the same texts: `dev/measure/bench texts PROGRAM..` compares an earlier build with
# this one.
#
# A time is processor time, the least of five runs, in nanoseconds a record. The last column is what a record costs of the large text
# by what it costs of the small one: 1.00 where both cost the same. A run is cut off after 20 seconds, and then shown with what it took.
#
#   handoffs     one gives and waits, one takes from it, and the giver is told; in a transfer queue the item was kept
#   withdrawals  items are kept, half as many records as there are in all, and then transfers behind them are cancelled, one by one
set -euo pipefail
. "$(dirname "$0")/../../bin/built.bash"
build meet
programs=("$(program_of meet)" "$@")
work=$(mktemp -d)
trap 'rm -rf "$work"' EXIT

# Writes a text of so many records or so: what, order, script or trace.
text_of() {
    awk -v what="$1" -v order="$2" -v form="$3" -v records="$4" 'BEGIN {
        trace = form == "trace"
        print trace ? "trace 1 " order : order
        ticket = 1
        if (what == "withdrawals") {
            for (; ticket <= records / 2; ticket++) print trace ? "0 " ticket " give-kept " ticket : "0 put " ticket
            for (made = ticket - 1; made + 2 <= records; made += 2) {
                print trace ? "1 " ticket " give-waits " ticket : "1 transfer " ticket
                print trace ? "1 " ticket " withdrawn cancelled" : "1 cancel"
                ticket++
            }
        } else if (order == "transfer") {
            for (made = 0; made + 2 <= records; made += 2) {
                print trace ? "0 " ticket " give-kept " ticket : "0 put " ticket
                print trace ? "1 " ticket + 1 " take-meets " ticket " " ticket : "1 take"
                ticket += 2
            }
        } else {
            for (made = 0; made + 3 <= records; made += 3) {
                print trace ? "0 " ticket " give-waits " ticket : "0 put " ticket
                print trace ? "1 " ticket + 1 " take-meets " ticket " " ticket : "1 take"
                print trace ? "0 " ticket " done" : "0 follow"
                ticket += 2
            }
        }
    }'
}

# The least processor time of five runs of this program on this text, in milliseconds.
time_of() {
    local least='' spent words=("$2") TIMEFORMAT='%U %S'
    [ "$2" != erase ] || words=(check --erase)
    for _ in 1 2 3 4 5; do
        spent=$({ time timeout 20 "$1" "${words[@]}" <"$3" >/dev/null; } 2>&1 | awk '{ printf "%d", ($1 + $2) * 1000 }')
        if [ -z "$least" ] || [ "$spent" -lt "$least" ]; then
            least=$spent
        fi
        [ "$spent" -lt 19000 ] || break
    done
    echo "$least"
}

echo "nanoseconds a record: $(nproc) processors, $(date -u +%F)"
printf '%-34s %10s %10s %7s  %s\n' what 65,536 1,048,576 ratio program
while read -r verb form order what; do
    text_of "$what" "$order" "$form" 65536 >"$work/small"
    text_of "$what" "$order" "$form" 1048576 >"$work/large"
    for program in "${programs[@]}"; do
        small=$(time_of "$program" "$verb" "$work/small")
        large=$(time_of "$program" "$verb" "$work/large")
        awk -v what="$verb, $order, $what" -v small="$small" -v large="$large" -v program="${program#"$top/"}" 'BEGIN {
            if (small < 1) small = 1
            printf "%-34s %10.0f %10.0f %7.2f  %s\n", what, small * 1e6 / 65536, large * 1e6 / 1048576, large / small / 16, program
        }'
    done
done <<'END'
check trace fair handoffs
check trace transfer handoffs
check trace transfer withdrawals
sum trace fair handoffs
sum trace transfer handoffs
sum trace transfer withdrawals
erase trace fair handoffs
erase trace transfer handoffs
erase trace transfer withdrawals
run script fair handoffs
run script transfer handoffs
run script transfer withdrawals
END
