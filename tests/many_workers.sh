#!/usr/bin/env bash
# Many threads that share one book, many times: 64 workers, 200 times on eight persons and 20 times on three hundred.
# How threads run differs from run to run, so each report is verified, and its cost is that of the rounds.
# Needs the built program (rt run in crates/auction_cli): tests/many_workers.sh [PROGRAM]
set -euo pipefail
top=$(cd "$(dirname "$0")/.." && pwd)
program=${1:-$top/crates/auction_cli/out/auction_cli}
work=$(mktemp -d)
trap 'rm -rf "$work"' EXIT
failed=0

# try INPUT TIMES REFRESH: runs, of which each has a minute.
try() {
    local input=$1 times=$2 refresh=$3 cost wanted start run said
    start=$SECONDS
    cost=$("$program" solve < "$input" | grep '^cost ')
    wanted="verified $cost"
    for run in $(seq 1 "$times"); do
        said=none
        if timeout 60 "$program" solve --mode workers --workers 64 --refresh "$refresh" --prices < "$input" > "$work/report"; then
            said=$("$program" verify "$work/report" < "$input") || true
        fi
        if [ "$said" != "$wanted" ]; then
            echo "$(basename "$input"), refresh $refresh, run $run: wanted '$wanted', got '$said'"
            failed=$((failed + 1))
        fi
    done
    echo "$(basename "$input"), refresh $refresh: $times runs in $((SECONDS - start)) s, $cost"
}

python3 "$top/examples/make_problem.py" 300 1 1000 20261122 > "$work/three_hundred"
for refresh in 0 1 1000; do
    try "$top/examples/eight_persons.txt" 200 "$refresh"
    try "$work/three_hundred" 20 "$refresh"
done
[ "$failed" = 0 ]
