#!/usr/bin/env bash
# Proves the library for C and builds it: c/out/libnushbaret.a and c/out/libnushbaret.so, in which only the names of
# exports.map can be seen. Programs ask at run time for the SONAME, libnushbaret.so.N with the first number of VERSION: a
# link of this name stands next to it. Needs the kit, and cc with the binutils that it uses.
#     c/build.sh [gate] [--target aarch64]
# The extension module of the Python package, c/build_extension.sh, comes after them where Python.h is.
# With `--target aarch64` it builds the same for 64-bit ARM in c/out/aarch64, by aarch64-linux-gnu-gcc and with the heap of
# c/heap.c: the kit has one for x86-64 alone. Without it c/out gets module.ll too, the LLVM module of which the archive is
# made; page/build.sh compiles it for web pages.
#
# With the word `gate` it stands on the crates that `rt ci` has just proved, as rt ci's own checks do, and proves the
# library's crate alone: rt proves the crates below once more after a gate, which leaves them unstamped.
set -euo pipefail
top=$(cd "$(dirname "$0")/.." && pwd)
crate=$top/crates/nushbaret

stop() {
    echo "c/build.sh: $*" >&2
    exit 1
}

usage() {
    echo 'usage: c/build.sh [gate] [--target aarch64]' >&2
    exit 2
}

# over_the_crates WORD..: proves the crate and builds it over the libraries of the crates below as they stand in their out/rlib.
over_the_crates() {
    local words=(--crate-name nushbaret src/lib.rt --extern "std=$kit/rlibs/std.rlib" -L "dependency=$kit/rlibs") name
    for name in $(sed -n 's/^nushbaret staticlib: //p' "$top/crates.txt"); do
        words+=(--extern "$name=$top/crates/$name/out/rlib/$name.rlib")
    done
    for name in "$top"/crates/*/out/rlib; do
        words+=(-L "dependency=$name")
    done
    words+=(--antt-project "$kit/rattle/logic/antt-project.json" --logic-built "$kit/logic_built" --links nushbaret= "$@")
    mkdir -p "$(dirname "$archive")"
    keeping_toolchain
    cd "$crate"
    "$kit/bin/rattle" build "${words[@]}" --crate-type staticlib --toolchain "$work/toolchain" --backend llvm -o "$archive"
}

# The kit's compilers in a folder of links, whose clang keeps the module that it is to compile, and its own words.
keeping_toolchain() {
    local clang=$kit/toolchain/bin/clang
    mkdir -p "$work/toolchain/bin"
    ln -s "$kit/toolchain/lib" "$work/toolchain/"
    ln -s "$kit"/toolchain/bin/* "$work/toolchain/bin/"
    rm "$work/toolchain/bin/clang"
    printf '#!/bin/bash\nprintf "%%s\\n" "$@" > %q\ncp module.bc %q\nexec %q "$@"\n' "$work/words" "$work/module.bc" "$clang" \
        > "$work/toolchain/bin/clang"
    chmod +x "$work/toolchain/bin/clang"
}

# The kept module as text, if its words compile it to the archive's own object once more.
keep_module() {
    local words
    mapfile -t words < "$work/words"
    mkdir "$work/archive"
    (cd "$work/archive" && ar x "$archive")
    (cd "$work" && "$kit/toolchain/bin/clang" "${words[@]}")
    cmp "$work/module.o" "$work"/archive/* || stop 'the module that was kept gives another object than the archive has'
    "$kit/toolchain/bin/clang" --no-default-config --target=x86_64-unknown-linux-gnu -O0 -Xclang -disable-llvm-passes -S -emit-llvm \
        -x ir "$work/module.bc" -o "$out/module.ll"
}

# Proves the crate, and makes the archive of x86-64 or of ARM.
prove_and_compile() {
    local target=()
    [ -z "$tools" ] || target=(--target aarch64-unknown-linux-gnu)
    if [ -z "$is_gate" ]; then
        echo "c/build.sh: proves the library for C, and each crate below that isn't proved yet. This takes some 3 minutes" \
            "after ./prove, and up to an hour on a fresh clone. It waits for any other rt that works in these crates." >&2
        "$top/prove" nushbaret > "$log" 2>&1 || { tail -20 "$log"; exit 1; }
    fi
    (over_the_crates "${target[@]}" > "$log" 2>&1) || { tail -20 "$log"; exit 1; }
}

is_gate= tools= heap= out=$top/c/out archive=$crate/out/libnushbaret.a
while [ $# -gt 0 ]; do
    case $1 in
    gate) is_gate=yes ;;
    --target)
        [ "${2-}" = aarch64 ] || usage
        shift
        tools=aarch64-linux-gnu- out=$top/c/out/aarch64 archive=$crate/out/aarch64/libnushbaret.a
        ;;
    *) usage ;;
    esac
    shift
done
cc=cc
[ -z "$tools" ] || cc=${tools}gcc
type -P "$cc" > /dev/null || stop "$cc isn't here${tools:+: Debian has it in gcc-aarch64-linux-gnu}"
type -P rt > /dev/null || stop "the Rattle kit isn't on the path (docs/CONTRIBUTING.md)"
kit=$(dirname "$(rt doc)")
work=$(mktemp -d)
log=$work/log
trap 'rm -rf "$work"' EXIT
prove_and_compile
mkdir -p "$out"
[ -n "$tools" ] || keep_module

# One object of the archive and of what it needs of the heap: its other names become local.
if [ -z "$tools" ]; then
    heap=$kit/c/liblibc_c.a
else
    heap=$out/heap.o
    "$cc" -std=c99 -O2 -Wall -Wextra -fPIC -c "$top/c/heap.c" -o "$heap"
fi
"$cc" -r -nostdlib -o "$out/nushbaret.o" -Wl,--whole-archive "$archive" -Wl,--no-whole-archive "$heap"
"${tools}objcopy" --wildcard --keep-global-symbol='nushbaret_*' "$out/nushbaret.o"
rm -f "$out/libnushbaret.a"
"${tools}ar" rcs "$out/libnushbaret.a" "$out/nushbaret.o"
soname=libnushbaret.so.$(cut -d. -f1 "$top/VERSION")
"$cc" -shared -o "$out/libnushbaret.so" "$out/nushbaret.o" -Wl,-soname,"$soname" \
    -Wl,--version-script="$top/c/exports.map" -Wl,-z,defs -Wl,-z,now -Wl,-z,relro
ln -sf libnushbaret.so "$out/$soname"
rm -f "$out/nushbaret.o" "$out/heap.o"
"$top/c/build_extension.sh" ${tools:+--target aarch64} || echo 'c/build.sh: the Python package goes by ctypes, without an extension' >&2
[ -n "$is_gate" ] || echo "c/build.sh: $out has libnushbaret.a and libnushbaret.so" >&2
