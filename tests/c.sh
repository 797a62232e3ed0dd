#!/usr/bin/env bash
# Builds the library for C, compares its header with the crate, and calls it from C and from C++: worked and drawn
# problems, square and not, each fault and each code, each growth refused, eight threads at a time; once more with the
# compiler's own checks of addresses and of undefined behaviour on the C side, where cc has them; and once more as built for
# 64-bit ARM, where its compiler and qemu are. Prints what differs; the last line says what ran.
# Needs cc with the binutils, c++ and python3, and the kit: tests/c.sh [gate], with c/build.sh's word. With the word
# `built` it takes c/out as it stands, and needs no kit.
set -euo pipefail
top=$(cd "$(dirname "$0")/.." && pwd)
work=$(mktemp -d)
trap 'rm -rf "$work"' EXIT
failed=0
ran='C99, C++11'

# run NAME COMMAND..: what it prints is shown where it fails.
run() {
    local name=$1
    shift
    if ! "$@" > "$work/log" 2>&1; then
        echo "$name:"
        tail -20 "$work/log"
        failed=$((failed + 1))
    fi
}

# shows NAME COMMAND..: the worked example prints its answer.
shows() {
    local name=$1
    shift
    if [ "$("$@" 2> /dev/null)" != $'cost 3: person 1 has object 2, person 2 has object 1\nproved optimal' ]; then
        echo "$name: another answer"
        failed=$((failed + 1))
    fi
}

# The library for ARM: its names, the calls under emulation, and the worked example over the shared library.
on_arm() {
    local built=$top/c/out/aarch64 cc=aarch64-linux-gnu-gcc emulated
    emulated=(qemu-aarch64 -L "$(dirname "$(dirname "$("$cc" -print-file-name=libc.so.6)")")")
    run 'header for ARM' python3 "$top/tests/c/header.py" "$built"
    run 'ARM: build' "$cc" "${c99[@]}" "${flags[@]}" "${calls[@]}" "$built/libnushbaret.a" "${wrapped[@]}" -o "$work/calls_on_arm"
    run 'ARM' "${emulated[@]}" "$work/calls_on_arm"
    run 'example for ARM: build' "$cc" -std=c99 -pedantic "${flags[@]}" "$top/c/example.c" -L"$built" -lnushbaret -Wl,-rpath,"$built" -o "$work/example_on_arm"
    shows 'example for ARM' "${emulated[@]}" "$work/example_on_arm"
}

# Without the compiler for ARM the build says in one sentence where it is.
asks_for_its_compiler() {
    [ "$("$top/c/build.sh" --target aarch64 2>&1)" = "c/build.sh: aarch64-linux-gnu-gcc isn't here: Debian has it in gcc-aarch64-linux-gnu" ]
}

[ "${1-}" = built ] || "$top/c/build.sh" "$@"
archive=$top/c/out/libnushbaret.a
run header python3 "$top/tests/c/header.py"

flags=(-O1 -Wall -Wextra -Werror "-I$top/c" -pthread)
wrapped=(-Wl,--wrap=malloc,--wrap=realloc,--wrap=free)
calls=("$top"/tests/c/*.c)
c99=(-std=c99 -D_POSIX_C_SOURCE=200809L)
run 'C99: build' cc "${c99[@]}" "${flags[@]}" "${calls[@]}" "$archive" "${wrapped[@]}" -o "$work/calls"
run 'C99' "$work/calls"
run 'C++11: build' c++ -x c++ -std=c++11 "${flags[@]}" "${calls[@]}" -x none "$archive" "${wrapped[@]}" -o "$work/calls_as_cpp"
run 'C++11' "$work/calls_as_cpp"
# The header is without a cast that C++ has no use for: a caller's own warnings don't stop at it.
echo '#include "nushbaret.h"' > "$work/header.cpp"
run 'header in C++' c++ -std=c++11 -pedantic "${flags[@]}" -Wno-unknown-warning-option -Wconversion -Wold-style-cast -Wuseless-cast -fsyntax-only "$work/header.cpp"
if echo 'int main(void) { return 0; }' | cc -fsanitize=address,undefined -x c - -o "$work/empty" 2> /dev/null; then
    run 'checked: build' cc "${c99[@]}" "${flags[@]}" -fsanitize=address,undefined -fno-sanitize-recover=all "${calls[@]}" "$archive" "${wrapped[@]}" -o "$work/checked"
    run 'checked' "$work/checked"
    ran="$ran, under sanitizers"
fi

# The worked example, over the shared library, in C and in C++.
run 'example in C++: build' c++ -x c++ -std=c++11 -pedantic "${flags[@]}" "$top/c/example.c" -x none "$archive" -o "$work/example_as_cpp"
run 'example in C++' "$work/example_as_cpp"
run 'example: build' cc -std=c99 -pedantic "${flags[@]}" "$top/c/example.c" -L"$top/c/out" -lnushbaret -Wl,-rpath,"$top/c/out" -o "$work/example"
shows 'example' "$work/example"

# The example of rows, and rows, plans and trees with each code, against a plain program.
run 'rows: build' cc -std=c99 -pedantic "${flags[@]}" "$top/c/example_rows.c" "$archive" -o "$work/example_rows"
if [ "$("$work/example_rows" 2> /dev/null)" != $'cost -1, and no plan costs less than -1\nno plan' ]; then
    echo 'example of rows: another answer'
    failed=$((failed + 1))
fi
run 'rows: calls' python3 "$top/tests/c/rows.py" "$top/c/out/libnushbaret.so"

# The example of counts, and problems with counts against a plain program.
run 'counts: build' cc -std=c99 -pedantic "${flags[@]}" "$top/c/example_counts.c" "$archive" -o "$work/example_counts"
run 'counts: example' "$work/example_counts"
run 'counts: calls' python3 "$top/tests/c/counts.py" "$top/c/out/libnushbaret.so"

# Costs in doubles: each code, and drawn problems.
run 'doubles' python3 "$top/tests/c/doubles.py" "$top/c/out/libnushbaret.so"

if ! type -P aarch64-linux-gnu-gcc > /dev/null; then
    run 'no compiler for ARM' asks_for_its_compiler
    ran="$ran; not on ARM: no aarch64-linux-gnu-gcc"
elif ! type -P qemu-aarch64 > /dev/null; then
    ran="$ran; not on ARM: no qemu-aarch64"
elif [ "${1-}" = built ] && [ ! -e "$top/c/out/aarch64/libnushbaret.a" ]; then
    ran="$ran; not on ARM: c/build.sh --target aarch64 hasn't run"
else
    [ "${1-}" = built ] || "$top/c/build.sh" "$@" --target aarch64
    on_arm
    ran="$ran, on ARM under qemu"
fi
echo "c: $ran"
[ "$failed" = 0 ]
