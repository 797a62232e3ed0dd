#!/usr/bin/env bash
# Builds the library for Windows on x86-64 of the module that c/build.sh kept: c/out/windows gets nushbaret.dll, its import
# library nushbaret.lib, and nushbaret.o, of which the DLL is linked. Needs the kit, whose clang compiles and makes the import
# library, python3, and mingw's compiler, which links: Debian has it in gcc-mingw-w64-x86-64.
set -euo pipefail
here=$(cd "$(dirname "$0")" && pwd)
module=$here/out/module.ll
out=$here/out/windows
gnu=x86_64-w64-mingw32

stop() {
    echo "c/build_windows.sh: $*" >&2
    exit 1
}

# The names that exports.map shows, sorted as they stand there.
calls() {
    sed -n 's/^ *\(nushbaret_[a-z_]*\);$/\1/p' "$here/exports.map"
}

# What objdump says of the DLL: each library that it needs, and each name that it exports.
needed() {
    "$gnu-objdump" -p "$out/nushbaret.dll" | sed -n 's/^\tDLL Name: //p'
}

exported() {
    "$gnu-objdump" -p "$out/nushbaret.dll" | sed -n '/ RVA$/d; s/^\t\[ *[0-9]*\].* \([^ ]*\)$/\1/p'
}

type -P rt > /dev/null || stop "the Rattle kit isn't on the path (docs/CONTRIBUTING.md)"
type -P "$gnu-gcc" > /dev/null || stop "$gnu-gcc isn't here: Debian has it in gcc-mingw-w64-x86-64"
[ -e "$module" ] || stop "c/out/module.ll isn't there: run c/build.sh first"
clang=$(dirname "$(rt doc)")/toolchain/bin/clang
work=$(mktemp -d)
trap 'rm -rf "$work"' EXIT
mkdir -p "$out"

# The words of the kit to its clang.
python3 "$here/retarget.py" "$module" windows > "$work/library.ll"
"$clang" --no-default-config -no-canonical-prefixes --target=x86_64-w64-windows-gnu -Werror -O3 -ffunction-sections -fdata-sections \
    -mllvm -no-x86-call-frame-opt -mllvm -no-trap-after-noreturn -mllvm -trap-unreachable -mllvm -disable-machine-licm \
    -mllvm -disable-postra-machine-licm -mllvm -sink-common-insts=false -c -x ir "$work/library.ll" -o "$out/nushbaret.o"

# No start-up code, since the library has no state. Divisions of 128 bits and the probes of large frames are libgcc's; the heap
# and memmove are those of msvcrt.dll, which each Windows has.
{ printf 'LIBRARY nushbaret.dll\nEXPORTS\n'; calls; } > "$work/nushbaret.def"
"$gnu-gcc" -shared -nostdlib -s -o "$out/nushbaret.dll" "$out/nushbaret.o" "$work/nushbaret.def" -lgcc -lmsvcrt -Wl,--entry=0 \
    -Wl,--gc-sections -Wl,--no-insert-timestamp -Wl,--dynamicbase -Wl,--high-entropy-va -Wl,--nxcompat \
    -Wl,--image-base=0x180000000
# The kit's clang is this program too, by its name.
ln -s "$clang" "$work/lld-link"
"$work/lld-link" /lib /machine:x64 "/def:$work/nushbaret.def" "/out:$out/nushbaret.lib"
[ "$(needed)" = msvcrt.dll ] || stop "the DLL needs other libraries than msvcrt.dll: $(needed | paste -s -d ' ')"
[ "$(exported)" = "$(calls)" ] || stop "the DLL exports other names than exports.map: $(exported | paste -s -d ' ')"
