#!/usr/bin/env bash
# Writes a new version in each place that has it: release/bump.sh NEW, as release/bump.sh 1.20.3. It refuses, and
# changes nothing, where a file hasn't the old version as often as it should, or where another file of git's has it.
# The changes, the built files of release/ and examples of other versions stay as they are. Needs git.
set -euo pipefail
cd "$(dirname "$0")/.."
old=$(cat VERSION)
new=${1-}

# Each file, with the number of lines that have the version.
places='VERSION 1
c/nushbaret.h 1
crates/program_tests/src/command.rt 2
crates/release_version/must-fail/another_version.edit 1
crates/release_version/src/lib.rt 2
docs/PROGRAM.md 1
python/nushbaret/lap/library.py 1
python/pyproject.toml 1'

stop() {
    echo "release/bump.sh: $*" >&2
    exit 1
}

[ $# = 1 ] || stop "it takes one word, the new version; this is $old"
[[ $new =~ ^(0|[1-9][0-9]*)(\.(0|[1-9][0-9]*)){2}$ ]] || stop "'$new' isn't a version of three numbers, as 1.20.3"
[ "$new" != "$old" ] || stop "this is $old already"
# The old version, with no digit and no number next to it.
pattern="(^|[^0-9.])${old//./\\.}($|[^0-9.]|\.($|[^0-9]))"
wanted=$(echo "$places" | sed 's/ /:/')
found=$(git grep -cIE "$pattern" -- . ':!CHANGELOG.md' ':!release/SHA256SUMS' ':!release/SOURCE' ':!release/nushbaret.html' || true)
[ "$found" = "$wanted" ] || stop "$old doesn't stand where it should; lines of each file: $(diff <(echo "$wanted") <(echo "$found"))"
echo "$places" | while read -r file _; do
    sed -i -E "s/$pattern/\1$new\2/g" "$file"
done
echo "$old is now $new; CHANGELOG.md, the builds and release/make.sh follow"
