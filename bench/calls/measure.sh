#!/usr/bin/env bash
# Calls of the crates alone, next to the same steps in plain Rust, on one input in one run: sessions
# with a book and events of several workers, memory of a book after few and many bids, reports
# written and read; and the offers of a round by one thread and several. The proved crates are
# copied, with a small program over them (programs/calls), which is proved, built and
# run there.
set -euo pipefail
here=$(cd "$(dirname "$0")" && pwd)
top=$(cd "$here/../.." && pwd)
work=${1:-$(mktemp -d)}
[ $# -gt 0 ] || trap 'rm -rf "$work"' EXIT
crate=$work/crates/calls
. "$top/programs/over_crates.sh"
over_crates "$top" "$work" calls
for name in events report; do
    rustc --edition 2024 -O -C target-cpu=x86-64-v2 -o "$work/plain_$name" "$here/../plain/$name.rs"
done
cc -O1 -o "$work/peak" "$here/../peak.c"

"$top/bench/crowded.sh" 1000 600 > "$work/crowded_1000"
"$top/bench/crowded.sh" 8192 2048 > "$work/crowded_8192"
python3 "$top/examples/make_sparse_problem.py" 8192 10 1 1000 5 > "$work/sparse_8192"
dense() {
    awk -v n="$1" 'BEGIN { seed = 7; print n
        for (i = 1; i <= n; i++) for (j = 1; j <= n; j++) {
            seed = (seed * 16807) % 2147483647
            print i, j, 1 + seed % 1000000
        } }'
}
dense 1024 > "$work/dense_1024"
(cd "$crate" && rt run -- offers 1 < "$work/dense_1024" > "$work/log" 2>&1) || { tail -20 "$work/log"; exit 1; }

calls=$crate/out/calls
for words in '1 1000000 1' '4 1000000 3'; do
    echo "events, WORKERS COUNT EVERY = $words: nanoseconds, version, sum of prices"
    for _ in 1 2 3 4 5; do
        echo "proved: $("$calls" events $words < "$work/crowded_1000")"
        echo "plain:  $("$work/plain_events" $words < "$work/crowded_1000")"
    done
done
echo 'memory: a run of the core on 8192 persons, less 4 bytes an event; worker 1 never takes prices'
for count in 200000 20000000; do
    printed=$("$work/peak" "$work/peaked" "$calls" events 2 $count 2 < "$work/crowded_8192")
    read -r kilobytes _ < "$work/peaked"
    echo "$count events: $((kilobytes - 4 * count / 1024)) KB; $printed"
done
echo 'reports of 8192 persons with prices: nanoseconds to write and to read, bytes, prices'
for _ in 1 2 3; do
    echo "proved: $("$calls" reports 20 < "$work/sparse_8192")"
    echo "plain:  $("$work/plain_report" 20)"
done
echo 'offers of rows of 1024: pairs, persons, nanoseconds by one thread and in 2, 4 and 8 pieces'
"$calls" offers 1 4 16 32 64 128 256 512 1024 < "$work/dense_1024"
