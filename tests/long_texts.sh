#!/usr/bin/env bash
# Texts of 2^30 bytes and more, which a test of the gate has no time for: endless blanks, zeros and
# words, and a problem with blanks up to the limit and past it. Prints how long each took.
# Needs the built program (rt run in crates/auction_cli): tests/long_texts.sh [PROGRAM]
set -uo pipefail
top=$(cd "$(dirname "$0")/.." && pwd)
program=${1:-$top/crates/auction_cli/out/auction_cli}
limit=$((1 << 30))
passed=0
failed=0

# So many of one byte.
many() {
    head -c "$2" /dev/zero | tr '\0' "$1"
}

# expect NAME STATUS LINE: what the program says to standard input.
expect() {
    local start status line
    start=$(date +%s.%N)
    line=$("$program" solve 2>&1)
    status=$?
    printf '%-44s %5.1f s  status %s  %s\n' "$1" "$(echo "$(date +%s.%N) - $start" | bc)" "$status" "$(echo "$line" | head -1)"
    if [ "$status" = "$2" ] && [ "$(echo "$line" | head -1)" = "$3" ]; then
        passed=$((passed + 1))
    else
        failed=$((failed + 1))
    fi
}

too_long='input: longer than 1073741824 bytes'
expect 'blanks past the limit' 3 "$too_long" < <(many ' ' $((limit + 1)))
expect 'blanks up to the limit' 3 'input: empty' < <(many ' ' "$limit")
expect 'zeros past the limit' 3 "$too_long" < <(many 0 $((limit + 1)))
expect 'zeros up to the limit' 3 'input: size out of range' < <(many 0 "$limit")
expect 'a word past the limit' 3 "$too_long" < <(many x $((limit + 1)))
expect 'a word up to the limit' 3 'input: bad number at byte 0' < <(many 'x' "$limit")
expect 'a problem and blanks up to the limit' 0 'sense min' < <(printf '1 7'; many ' ' $((limit - 3)))
expect 'a problem and blanks past the limit' 3 "$too_long" < <(printf '1 7'; many ' ' $((limit - 2)))
expect 'something behind the last cost, at the limit' 3 "input: extra data at byte $((limit - 1))" < <(printf '1 7'; many ' ' $((limit - 4)); printf x)
echo "$passed passed, $failed failed"
[ "$failed" = 0 ]
