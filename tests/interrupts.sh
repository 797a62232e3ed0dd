#!/usr/bin/env bash
# Interrupts a run that would go on for years, in each mode: it ends at once by the signal of Ctrl-C, with nothing
# written. Needs the built program (rt run in crates/auction_cli, or rt ci): tests/interrupts.sh [PROGRAM]
set -uo pipefail
top=$(cd "$(dirname "$0")/.." && pwd)
program=${1:-$top/crates/auction_cli/out/auction_cli}
work=$(mktemp -d)
trap 'rm -rf "$work"' EXIT
failed=0

# Two free objects would have to be bid up to the third one's price, by 1 or 2 a bid.
printf '3 1 1 1 1 1 1 1 1 1' > "$work/problem"
printf 'sense min\ncost 3\nassign 1 1 1\nassign 2 2 1\nassign 3 3 1\nprice 1 0\nprice 2 0\nprice 3 1000000000000000000\n' > "$work/report"
for mode in rounds workers; do
    status=0
    timeout --preserve-status -s INT -k 5 1 env --default-signal=INT \
        "$program" solve --mode "$mode" --start "$work/report" < "$work/problem" > "$work/out" 2> "$work/err" || status=$?
    if [ "$status" != 130 ] || [ -s "$work/out" ] || [ -s "$work/err" ]; then
        echo "interrupted in mode $mode: status $status, $(wc -c < "$work/out") bytes written, standard error '$(cat "$work/err")'"
        failed=$((failed + 1))
    fi
done
[ "$failed" = 0 ]
