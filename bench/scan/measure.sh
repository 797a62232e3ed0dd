#!/usr/bin/env bash
# Scans of rows: best_two_full and best_two next to the same loops in plain Rust, on the same inputs
# in one run. Four rows of 8192 and of 1000 objects in turn, which stay in the cache, and the 4000
# rows of a problem that doesn't fit. The proved crates are copied, with a small program over them
# (programs/scan), which is proved, built and run there.
# With the name of another tree of this project, its scans are measured too.
set -euo pipefail
here=$(cd "$(dirname "$0")" && pwd)
top=$(cd "$here/../.." && pwd)
work=$(mktemp -d)
trap 'rm -rf "$work"' EXIT

. "$top/programs/over_crates.sh"

# A program over the crates of a tree.
build() {
    local tree=$1 place=$2
    over_crates "$tree" "$place" scan
    (cd "$place/crates/scan" && rt run < /dev/null > "$place/log" 2>&1) || { tail -5 "$place/log"; exit 1; }
}

# A sparse problem of n persons: the first list all objects, the next all but one.
rows() {
    awk -v n="$1" -v full="$2" -v fewer="$3" 'BEGIN { seed = 7; print n
        for (i = 1; i <= full + fewer; i++) for (j = 1; j <= (i <= full ? n : n - 1); j++) {
            seed = (seed * 16807) % 2147483647
            print i, j, 1 + seed % 1000000
        } }'
}

build "$top" "$work/proved"
[ $# = 0 ] || build "$(cd "$1" && pwd)" "$work/other"
rustc --edition 2024 -O -C target-cpu=x86-64-v2 -o "$work/plain" "$here/scan.rs"
for case in "8192 4 4" "1000 4 4" "4000 4000 0"; do
    rows $case > "$work/input"
    for _ in 1 2 3; do
        echo "$case proved:"
        "$work/proved/crates/scan/out/scan" < "$work/input"
        [ $# = 0 ] || { echo "$case other:"; "$work/other/crates/scan/out/scan" < "$work/input"; }
        echo "$case plain:"
        "$work/plain" < "$work/input"
    done
done
