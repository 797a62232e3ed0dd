#!/usr/bin/env bash
# Whether the programs that scripts build by hand still fit the crates. Those of programs/ are compiled as the tests of one
# crate, without a proof, and run without input (`rt try`). Of those of bench/ the ones in C are compiled, and the ones in
# Rust where rustc is. Needs the kit and cc.
set -euo pipefail
top=$(cd "$(dirname "$0")/.." && pwd)
work=$(mktemp -d)
trap 'rm -rf "$work"' EXIT
. "$top/programs/over_crates.sh"
names=$(sed -n 's/^\([a-z_]*\):.*/\1/p' "$programs/uses.txt")
uses=$(for name in $names; do uses_of "$programs/uses.txt" "$name"; done | tr ' ' '\n' | sort -u | tr '\n' ' ')
copy_crates "$top" "$work" $uses
echo "programs: $uses" >> "$work/crates.txt"
crate=$work/crates/programs
mkdir -p "$crate/src"
echo '#![tactic(auto)]' > "$crate/src/lib.rt"
for name in $names; do
    echo "mod $name;" >> "$crate/src/lib.rt"
    sed 's/^fn main(/#[test]\nfn runs(/' "$programs/$name/main.rt.txt" > "$crate/src/$name.rt"
done
(cd "$crate" && rt try --test < /dev/null > "$work/log" 2>&1) || { cat "$work/log"; exit 1; }
for name in $names; do
    grep -q "^test $name::runs ... ok" "$work/log" || { echo "$name doesn't run:"; cat "$work/log"; exit 1; }
done

checked=0
for source in "$top"/bench/*.c; do
    cc -std=gnu99 -fsyntax-only -Wall -Wextra -Werror "$source"
    checked=$((checked + 1))
done
if command -v rustc > "$work/log"; then
    for source in "$top/bench/plain/paths.rs" $(grep -l '^fn main' "$top"/bench/plain/*.rs "$top"/bench/scan/*.rs); do
        rustc --edition 2024 --crate-type lib --emit=metadata -A dead_code -o "$work/metadata" "$source"
        checked=$((checked + 1))
    done
fi
echo "programs: $(echo $names | wc -w) over the crates, and $checked of bench/"
