#!/usr/bin/env bash
# Refuses each growth of small runs of a log, a book and desks in turn. Each call that meets the refusal has
# to leave things as its contract says, and the run has to go on to the answer that ample memory gives;
# a run whose problem, log, book or place can't be made writes nothing. The crates are copied, with a small
# program over them (programs/growths), which is proved and built there.
# Needs cc: tests/growths.sh [FOLDER]
set -euo pipefail
top=$(cd "$(dirname "$0")/.." && pwd)
work=${1:-$(mktemp -d)}
[ $# -gt 0 ] || trap 'rm -rf "$work"' EXIT
crate=$work/crates/growths
. "$top/programs/over_crates.sh"
over_crates "$top" "$work" growths
(cd "$crate" && rt run -- turns > "$work/log" 2>&1) || { tail -20 "$work/log"; exit 1; }
program=$crate/out/growths
cc -O1 -shared -fPIC -o "$work/refuse.so" "$top/tests/refuse.c" -ldl

# One run with one growth refused: what it prints.
run() {
    REFUSED_GROWTH=$1 LD_PRELOAD="$work/refuse.so" "$program" "$2" 2> /dev/null || true
}

# Refuses growth 1, 2, .. of the run that a word names, up to as many as it has with ample memory.
try_all() {
    local wanted growths growth printed unmade=0 went_on=0 untouched=0
    wanted=$(GROWTHS_FILE="$work/growths" run 0 "$1")
    growths=$(cat "$work/growths")
    for growth in $(seq 1 "$growths"); do
        printed=$(run "$growth" "$1")
        if [ -z "$printed" ]; then
            unmade=$((unmade + 1))
        elif [ "$printed" = "$wanted" ]; then
            untouched=$((untouched + 1))
        elif [ "$(echo "$printed" | cut -d' ' -f1-3)" = "$2" ] && [[ $(echo "$printed" | cut -d' ' -f4) = *M* ]]; then
            went_on=$((went_on + 1))
        else
            echo "$1: growth $growth refused: $printed"
            failed=$((failed + 1))
        fi
    done
    echo "$1: $wanted; $growths growths, $unmade before the first step, $went_on refusals met and left behind, $untouched unseen"
    if [ "$(echo "$wanted" | cut -d' ' -f1-3)" != "$2" ] || [ "$went_on" = 0 ]; then
        failed=$((failed + 1))
    fi
}

failed=0
try_all log 'end 65600 0'
try_all book 'end 2 1'
try_all turns 'end 2 1'
try_all hall 'end 2 1'
[ "$failed" = 0 ]
