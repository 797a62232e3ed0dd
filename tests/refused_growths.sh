#!/usr/bin/env bash
# Refuses each growth of a run in turn, and looks for an answer other than "memory refused" with
# status 4 and nothing written, or the answer that ample memory gives.
# Needs the built program (rt run in crates/auction_cli, or rt ci) and cc: tests/refused_growths.sh [PROGRAM]
set -euo pipefail
top=$(cd "$(dirname "$0")/.." && pwd)
program=${1:-$top/crates/auction_cli/out/auction_cli}
work=$(mktemp -d)
trap 'rm -rf "$work"' EXIT

cc -O1 -shared -fPIC -o "$work/refuse.so" "$top/tests/refuse.c" -ldl

# One run with one growth refused: prints the status.
run() {
    local status=0
    REFUSED_GROWTH=$1 LD_PRELOAD="$work/refuse.so" "$program" "${@:3}" < "$2" > "$work/out" 2> "$work/err" || status=$?
    echo "$status"
}

# Refuses growth 1, 2, .. of one command, up to as many as it has with ample memory.
try_all() {
    local input=$1 wanted growth status
    refusals=0
    shift
    wanted=$(GROWTHS_FILE="$work/growths" run 0 "$input" "$@")
    mv "$work/out" "$work/wanted"
    growths=$(cat "$work/growths")
    for growth in $(seq 1 "$growths"); do
        status=$(run "$growth" "$input" "$@")
        if [ "$status" = 4 ] && [ ! -s "$work/out" ] && [ "$(cat "$work/err")" = "memory refused" ]; then
            refusals=$((refusals + 1))
        elif [ "$status" != "$wanted" ] || ! cmp -s "$work/out" "$work/wanted"; then
            echo "$(basename "$input") $*: growth $growth refused, status $status: $(cat "$work/err")"
            failed=$((failed + 1))
        fi
    done
    echo "$(basename "$input") $*: status $wanted, $growths growths, $refusals answered with status 4"
}

# The same, where all but so many growths have to be answered with status 4, or all but so many more that depend on how the
# threads run: try_all_but LEAST[-MOST] INPUT WORD... Those are tried again or done without.
try_all_but() {
    local least=${1%-*} most=${1#*-}
    shift
    try_all "$@"
    if [ $((growths - refusals)) -lt "$least" ] || [ $((growths - refusals)) -gt "$most" ]; then
        echo "$(basename "$1") ${*:2}: wanted from $((growths - most)) to $((growths - least)) answered with status 4"
        failed=$((failed + 1))
    fi
}

failed=0
printf '1 7' > "$work/one_person"
printf '2 1 2 3' > "$work/truncated"
try_all "$work/one_person" solve
try_all "$top/examples/two_persons.txt" solve
try_all "$top/examples/eight_persons.txt" solve
try_all "$work/truncated" solve
try_all "$top/examples/two_persons.txt" solve --no-such-word
try_all "$top/examples/two_persons.txt" --help
try_all "$top/examples/hundred_persons.txt" solve
try_all "$top/examples/roster.txt" solve --sparse
try_all "$top/examples/short_roster.txt" solve --sparse
try_all "$top/examples/sales.txt" solve --max --prices
# Three growths are done without, and what either worker is refused has to be answered. A worker may end before it needs a
# growth that it needs in other runs.
printf '3 1 1 4 2 1 6 3 2 1 3 3 2' > "$work/three_persons"
for refresh in 0 1; do
    try_all_but 3-5 "$top/examples/two_persons.txt" solve --mode workers --workers 2 --refresh "$refresh"
    try_all_but 3-5 "$work/three_persons" solve --sparse --mode workers --workers 2 --refresh "$refresh"
done
# One worker has nobody who goes on without it.
try_all_but 2 "$top/examples/two_persons.txt" solve --mode workers --workers 1
try_all "$top/examples/two_persons.txt" solve --prices
try_all "$work/three_persons" solve --sparse --prices
printf '2 1 1 9 1 1 3 1 2 4 2 1 5 2 2 8' > "$work/twice"
try_all "$work/twice" solve --sparse --prices
for input in "$work/one_person" "$top/examples/two_persons.txt" "$top/examples/eight_persons.txt"; do
    try_all_but 2 "$input" solve --method paths --prices
done
try_all_but 2 "$work/three_persons" solve --sparse --method paths
try_all_but 2 "$top/examples/roster.txt" solve --sparse --max --method paths
"$program" solve --prices < "$top/examples/two_persons.txt" > "$work/report"
try_all_but 2 "$top/examples/two_persons.txt" solve --method paths --start "$work/report"
try_all "$top/examples/two_persons.txt" verify "$work/report"
try_all /dev/null verify --input "$top/examples/two_persons.txt" "$work/report"
"$program" solve --sparse < "$top/examples/short_roster.txt" > "$work/refusal" || true
try_all "$top/examples/short_roster.txt" verify --sparse "$work/refusal"
[ "$failed" = 0 ]
