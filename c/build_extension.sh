#!/usr/bin/env bash
# Builds the extension module of the Python package, c/out/_extension.abi3.so, next to the library that it calls:
#     c/build_extension.sh [--target aarch64]
# With `--target aarch64` it builds that for 64-bit ARM in c/out/aarch64, by aarch64-linux-gnu-gcc. One file serves each
# CPython from 3.9 on, since it has the limited API alone. PYTHON=.. names another interpreter than python3, whose Python.h
# it takes: of the limited API that header is the same on both machines, and pyconfig.h says the same of sizes.
set -euo pipefail
top=$(cd "$(dirname "$0")/.." && pwd)
python=${PYTHON:-python3}

stop() {
    echo "c/build_extension.sh: $*" >&2
    exit 1
}

case "${1-}" in
'') cc=cc out=$top/c/out ;;
--target) [ "${2-}" = aarch64 ] || stop 'the target is aarch64'; cc=aarch64-linux-gnu-gcc out=$top/c/out/aarch64 ;;
*) stop 'usage: c/build_extension.sh [--target aarch64]' ;;
esac
type -P "$cc" > /dev/null || stop "$cc isn't here"
work=$(mktemp -d)
trap 'rm -rf "$work"' EXIT
mkdir -p "$out"
cd "$top/python/building"
"$python" -c 'import sys, nushbaret_build as build
build.compile_extension(*sys.argv[1:]) or sys.exit("c/build_extension.sh: " + build.NO_EXTENSION)' "$cc" "$work/_extension.abi3.so"
mv "$work/_extension.abi3.so" "$out/"
