#!/usr/bin/env bash
# Whether release/ is what it says, and is of use where there is no kit: tests/release.sh [FOLDER], another folder that
# release/make.sh made. Prints what is wrong. The last line says what was looked at, and what couldn't be.
#
# The sums are right, and name all that is there. Where SOURCE names what is checked out and the tools that are here, what
# is built here is packed again and compared byte for byte. Then tests/release/use.sh installs and uses all of it, with the
# kit out of sight.
set -uo pipefail
top=$(cd "$(dirname "$0")/.." && pwd)
given=${1:-$top/release}
if [ ! -f "$given/SHA256SUMS" ]; then
    echo "release: no artefacts in ${given#"$top"/}/ yet; release/make.sh makes them of what is built"
    exit 0
fi
folder=$(cd "$given" && pwd)
work=$(mktemp -d)
trap 'rm -rf "$work"' EXIT
touch "$work/failed" "$work/ran" "$work/without"

fail() {
    echo "$*" | tee -a "$work/failed"
}

# What is there is what the sums name, and each sum is right.
sums() {
    local there named
    there=$(cd "$folder" && find . -type f -not -path './parts/*' -not -name '*.sh' -not -name SHA256SUMS | sed 's|^\./||' | LC_ALL=C sort)
    named=$(sed 's/^[0-9a-f]*  //' "$folder/SHA256SUMS")
    [ "$there" = "$named" ] || fail "SHA256SUMS doesn't name what is there: $(diff <(echo "$named") <(echo "$there"))"
    (cd "$folder" && sha256sum --quiet -c SHA256SUMS 2>&1) > "$work/log" || fail "sums: $(cat "$work/log")"
    echo sums >> "$work/ran"
}

# Packs again what is built here, and compares it byte for byte.
compare_bytes() {
    if ! "$top/release/make.sh" "$work/again" > "$work/log" 2>&1; then
        fail "release/make.sh: $(tail -5 "$work/log")"
    elif diff -r "$work/again" "$folder" | grep -v -x -e "Only in $folder: make.sh" -e "Only in $folder: parts" > "$work/log"; then
        fail "what is built here gives other bytes: $(cat "$work/log")"
    else
        echo 'each byte as built here' >> "$work/ran"
    fi
}

# What a release packs and isn't built here.
unbuilt() {
    local file
    for file in crates/auction_cli/out/auction_cli c/out/libnushbaret.so c/out/aarch64/libnushbaret.so c/out/windows/nushbaret.dll page/out/nushbaret.html; do
        [ -e "$top/$file" ] || echo "$file"
    done | paste -s -d ' '
}

# Compares where the sources and the tools are those of the release, and says what differs where they aren't.
compare() {
    "$top/release/make.sh" --source > "$work/SOURCE" 2> "$work/log" || fail "release/make.sh --source: $(cat "$work/log")"
    if ! cmp -s "$folder/SOURCE" "$work/SOURCE"; then
        echo "release: $(head -n 1 "$folder/SOURCE"), of other sources or tools than there are here. Of the release (<), and here (>):"
        diff "$folder/SOURCE" "$work/SOURCE" | grep '^[<>]'
        echo 'a comparison with what is built here (other sources or tools)' >> "$work/without"
    elif [ -n "$(unbuilt)" ]; then
        echo "a comparison with what is built here (no $(unbuilt))" >> "$work/without"
    else
        compare_bytes
    fi
}

# The path without the kit: for a folder that has `rt` stands one of links to all else in it.
path_without_kit() {
    local place file path=
    for place in ${PATH//:/ }; do
        if [ -e "$place/rt" ] || [ "$(readlink -f "$place")" = "$kit/bin" ]; then
            mkdir -p "$work/path/$place"
            for file in "$place"/*; do
                case "$(readlink -f "$file")" in "${kit:-$place/rt}"*) ;; *) ln -s "$file" "$work/path/$place/" ;; esac
            done
            place=$work/path/$place
        fi
        path=$path${path:+:}$place
    done
    echo "$path"
}

# Uses the release with the kit out of sight: by the path, and by an empty folder over it where that can be had.
use() {
    local words=() way
    kit=$(rt doc 2> /dev/null) && kit=$(readlink -f "$(dirname "$kit")") || kit=
    for way in 'unshare -m' 'unshare -rm'; do
        if [ -n "$kit" ] && $way mount -t tmpfs none "$kit" 2> /dev/null; then
            words=($way bash -c 'mount -t tmpfs none "$0" && exec "$@"' "$kit")
            break
        fi
    done
    if [ -z "$kit" ]; then
        echo 'there is no kit here' >> "$work/ran"
    elif [ ${#words[@]} = 0 ]; then
        echo 'the kit off the path' >> "$work/ran"
        echo 'a mount namespace' >> "$work/without"
    else
        echo 'the kit off the path and under an empty folder' >> "$work/ran"
    fi
    env -u PYTHONPATH PATH="$(path_without_kit)" KIT="$kit" PYTHONDONTWRITEBYTECODE=1 \
        "${words[@]}" "$top/tests/release/use.sh" "$folder" "$work" || fail "tests/release/use.sh: status $?"
}

# A file's lines, joined.
joined() {
    paste -s -d , "$1" | sed 's/,/, /g'
}

sums
compare
use
echo "release: $(head -n 1 "$folder/SOURCE"): $(joined "$work/ran")$([ ! -s "$work/without" ] || echo "; without $(joined "$work/without")")"
[ ! -s "$work/failed" ]
