#!/usr/bin/env bash
# Workers on a place: whole runs by 1, 2 and 4 threads, and the sessions of one worker next to the same sessions
# with a book that lies in no place, on one input in one run. The proved crates are copied, with a small
# program over them (programs/place), which is proved, built and run there. bench/place/measure.sh [FOLDER]
set -euo pipefail
here=$(cd "$(dirname "$0")" && pwd)
top=$(cd "$here/../.." && pwd)
work=${1:-$(mktemp -d)}
[ $# -gt 0 ] || trap 'rm -rf "$work"' EXIT
crate=$work/crates/place
. "$top/programs/over_crates.sh"
over_crates "$top" "$work" place
python3 "$top/examples/make_sparse_problem.py" 1000 8 1 1000 7 > "$work/sparse_1000"
"$top/bench/crowded.sh" 1000 600 > "$work/crowded_1000"
(cd "$crate" && rt run -- events 1 < "$work/sparse_1000" > "$work/log" 2>&1) || { tail -20 "$work/log"; exit 1; }

place=$crate/out/place
uptime
for name in sparse_1000 crowded_1000; do
    echo "$name: nanoseconds, sessions, accepted bids, sum of prices"
    for _ in 1 2 3 4 5; do
        printed=$("$place" solve 1 1 < "$work/$name")
        echo "one desk:   $printed"
        echo "no place:   $("$place" events "$(echo "$printed" | cut -d' ' -f2)" < "$work/$name")"
        echo "2 threads:  $("$place" solve 2 1 < "$work/$name")"
        echo "4 threads:  $("$place" solve 4 1 < "$work/$name")"
    done
done
