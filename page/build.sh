#!/usr/bin/env bash
# Builds the roster page of the module that c/build.sh kept: page/out/nushbaret.html, and in the same folder the WebAssembly
# module that it holds, nushbaret.wasm, and tried.wasm, whose heap counts and refuses, for tests. Needs the kit, whose clang
# compiles and links it, and python3.
set -euo pipefail
here=$(cd "$(dirname "$0")" && pwd)
top=$(dirname "$here")
module=$top/c/out/module.ll
calls=(check_shortage counts_from version)
target=wasm32-unknown-unknown
# Without this the compiler calls functions for divisions of 128 bits.
divisions=(-mllvm -expand-div-rem-bits=64)

stop() {
    echo "page/build.sh: $*" >&2
    exit 1
}

type -P rt > /dev/null || stop "the Rattle kit isn't on the path (docs/CONTRIBUTING.md)"
[ -e "$module" ] || stop "c/out/module.ll isn't there: run c/build.sh first"
clang=$(dirname "$(rt doc)")/toolchain/bin/clang
work=$(mktemp -d)
trap 'rm -rf "$work"' EXIT
# The kit's clang is its linker too, by this name.
ln -s "$clang" "$work/wasm-ld"

# c_object NAME WORD..: a C file of this folder, as an object.
c_object() {
    local name=$1
    shift
    "$clang" --no-default-config "--target=$target" -std=c11 -O2 -Wall -Wextra -Werror -mcpu=lime1 -mbulk-memory -ffreestanding \
        -fno-builtin "${divisions[@]}" "$@" -c "$here/$name.c" -o "$work/$name.o"
}

# linked FILE WORD..: the module with a heap that is compiled with these words.
linked() {
    local file=$1
    shift
    c_object heap "$@"
    "$work/wasm-ld" --no-entry --stack-first -z stack-size=131072 --gc-sections --strip-all "${calls[@]/#/--export=nushbaret_}" \
        "$work/library.o" "$work/heap.o" "$work/words.o" -o "$file"
}

# The words of the kit to its clang, without those that are for x86-64.
python3 "$top/c/retarget.py" "$module" wasm32 "${calls[@]/#/nushbaret_}" > "$work/library.ll"
"$clang" --no-default-config -no-canonical-prefixes "--target=$target" -Werror -O3 -ffunction-sections -fdata-sections "${divisions[@]}" \
    -mllvm -no-trap-after-noreturn -mllvm -trap-unreachable -mllvm -disable-machine-licm -mllvm -disable-postra-machine-licm \
    -mllvm -sink-common-insts=false -c -x ir "$work/library.ll" -o "$work/library.o"
c_object words
mkdir -p "$here/out"
linked "$here/out/nushbaret.wasm"
linked "$here/out/tried.wasm" -DTRIED
python3 "$here/assemble.py" "$here/out/nushbaret.wasm" > "$here/out/nushbaret.html"
