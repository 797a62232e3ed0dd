#!/usr/bin/env bash
# The library for Windows as c/build_windows.sh left it in c/out/windows: under Wine the worked example, 20,000 drawn problems over
# the DLL against a search over sets, the DLL loaded as Python does, and the calls of tests/c over its object, each growth
# refused. On Linux the DLL's code, which tests/windows/loader.c runs, with rows and with some tests of the Python package:
#     tests/windows.sh [TEST..]
# TEST is a file of tests/python, or 'test_*.py' for all of them, which takes minutes. Nothing of it ran under Windows itself.
#
# Needs cc and python3, or another that PYTHON names; for Wine also mingw's compiler with threads and clang (Debian:
# gcc-mingw-w64-x86-64-posix, clang, wine64). The last line says what was left out.
set -euo pipefail
top=$(cd "$(dirname "$0")/.." && pwd)
built=$top/c/out/windows
gnu=x86_64-w64-mingw32
tests=("$@")
[ $# -gt 0 ] || tests=(test_small.py test_solving.py test_certificates.py)
python=${PYTHON:-python3}
wine=$(type -P wine64 || echo /usr/lib/wine/wine64)
if [ ! -e "$built/nushbaret.dll" ]; then
    echo 'windows: the library for Windows is left out: c/build_windows.sh makes it'
    exit 0
fi
work=$(mktemp -d)
trap 'rm -rf "$work"' EXIT
failed=0
ran='the code of the DLL on Linux'

fail() {
    echo "windows: $*"
    failed=$((failed + 1))
}

# expect NAME LINES COMMAND..: it succeeds, and ends with these lines.
expect() {
    local name=$1 wanted=$2 printed
    shift 2
    printed=$("$@" 2> "$work/log" < /dev/null | tr -d '\r') || fail "$name: status $?, $printed $(tail -5 "$work/log")"
    [[ $printed == *"$wanted" ]] || fail "$name: wanted $wanted, got $printed"
}

# A program over the DLL, by its import library.
over_the_dll() {
    "$gnu-gcc" -std=c99 -O2 -Wall -Wextra -Werror -I"$top/c" "$1" "$built/nushbaret.lib" -o "$work/$(basename "$1" .c).exe"
}

# The calls of tests/c over the library's object. The test's own malloc stands in for that of the library alone, since mingw's
# start-up calls malloc too; so does its emulated thread-local data, which clang can do without. Windows rounds stacks up itself.
calls() {
    mkdir "$work/calls"
    "$gnu-objcopy" --redefine-sym malloc=__wrap_malloc --redefine-sym realloc=__wrap_realloc --redefine-sym free=__wrap_free \
        "$built/nushbaret.o" "$work/calls/library.o"
    (cd "$work/calls" && clang --target="$gnu" -fno-emulated-tls -std=c99 -O1 -DPTHREAD_STACK_MIN=0 -I"$top/c" -c "$top"/tests/c/*.c)
    "$gnu-objcopy" --redefine-sym __real_malloc=malloc --redefine-sym __real_realloc=realloc --redefine-sym __real_free=free \
        "$work/calls/memory.o"
    "$gnu-gcc-posix" "$work"/calls/*.o -pthread -static -o "$work/calls.exe"
}

under_wine() {
    local example=$'cost 3: person 1 has object 2, person 2 has object 1\nproved optimal'
    export WINEDEBUG=-all WINEPREFIX=$work/wine
    cp "$built/nushbaret.dll" "$work/"
    over_the_dll "$top/c/example.c"
    over_the_dll "$top/tests/windows/drawn.c"
    over_the_dll "$top/tests/windows/load.c"
    calls
    cd "$work"
    expect 'example under Wine' "$example" "$wine" example.exe
    expect 'drawn problems under Wine' ', as a search over sets says' "$wine" drawn.exe 20000
    expect 'loading under Wine' "loaded: $(cat "$top/VERSION")" "$wine" load.exe
    expect 'calls under Wine' 'calls: all as wanted' "$wine" calls.exe
    # Its server, of this prefix alone, would stay for some seconds.
    "$(dirname "$wine")/wineserver" -k 2> /dev/null || true
    ran="$ran; under Wine the example, 20,000 drawn problems, loading as Python does, and the calls of tests/c"
}

# The sources of the package and its tests, in a folder whose library is the loader.
copy() {
    mkdir -p "$work/top/c/out"
    cd "$top"
    cp -r --parents VERSION LICENSE-* README.md c/nushbaret.h bench/*.* docs examples python tests crates/assign_core/src/numbers.rt "$work/top"
    cc -std=gnu99 -O1 -Wall -Wextra -Werror -I"$top/c" -shared -fPIC "$top/tests/windows/loader.c" -o "$work/top/c/out/libnushbaret.so"
}

# tested FILE: a file of the package's tests, over the loader.
tested() {
    (cd "$work/top" && "$python" -m unittest discover -s tests/python -p "$1" > "$work/log" 2>&1) ||
        fail "$1: $(tail -20 "$work/log" | cut -c 1-300)"
}

copy
export NUSHBARET_DLL=$built/nushbaret.dll PYTHONPATH=$work/top/python PYTHONDONTWRITEBYTECODE=1
"$python" "$top/tests/c/rows.py" "$work/top/c/out/libnushbaret.so" > "$work/log" 2>&1 || fail "rows: $(tail -5 "$work/log")"
for each in "${tests[@]}"; do
    tested "$each"
done
missing=
for each in "$gnu-gcc" "$gnu-gcc-posix" clang "$wine"; do
    type -P "$each" > /dev/null || missing="$missing $each"
done
if [ -z "$missing" ]; then
    under_wine
else
    ran="$ran; left out: all under Wine (no$missing)"
fi
echo "windows: $ran"
[ "$failed" = 0 ]
