#!/usr/bin/env bash
# The roster page: tests/page.sh [PAGE.html], the built one if none is named, or else that of release/.
#
# Its reader and its answers agree with the command's on a table of rosters, on examples/, on 300 drawn ones, on 500 drawn wards
# with counts, days, shortages and earlier plans, and on 10 drawn months (PAGE_MONTHS sets how many) of 28 nurses and 93 shifts; its
# module agrees with a plain search, and where its trial is built its heap is tried; in Chromium and in Firefox a planner's month is
# read, planned and changed, from a file on disk, and nobody is asked for anything. Its scripts are typed. Needs python3, the
# library of c/out and node, and says what it left out where tsc, chromium or firefox-esr isn't there.
set -euo pipefail
cd "$(dirname "$0")/.."
export PYTHONPATH=$PWD/python PYTHONDONTWRITEBYTECODE=1
page=${1:-page/out/nushbaret.html}
[ -e "$page" ] || page=release/nushbaret.html
if [ ! -e "$page" ]; then
    echo 'page: there is none yet; page/build.sh makes it'
    exit 0
fi
work=$(mktemp -d)
trap 'rm -rf "$work"' EXIT
examples=(examples/named_roster.csv examples/night_shifts.csv examples/week.csv)

tests/page/read_rosters.py tests/page/rosters.json 300 "${PAGE_MONTHS:-10}" "${examples[@]}" > "$work/read.json"
node tests/page/reader.mjs "$work/read.json" "$page"
tried=()
[ "$page" != page/out/nushbaret.html ] || tried=(page/out/tried.wasm)
node tests/page/module.mjs "$page" 3000 "${tried[@]}"
tests/page/retarget.py

if type -P tsc > /dev/null; then
    tsc -p page
    echo 'page: its scripts are typed'
else
    echo 'page: left out: types (no tsc)'
fi
# Browsers open it elsewhere than where it was built, so that it needs no other file.
cp "$page" "$work/page.html"
tests/page/great_roster.py 400 > "$work/great.csv"
heading=$(python3 -m nushbaret -q "$work/great.csv")
for browser in chromium firefox-esr; do
    if type -P "$browser" > /dev/null; then
        node "tests/page/in_${browser%-esr}.mjs" "$work/page.html" examples "$work/great.csv" "$heading"
    else
        echo "page: left out: a browser (no $browser)"
    fi
done
