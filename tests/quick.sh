#!/usr/bin/env bash
# Tests what needs no proof, in some minutes: tests/quick.sh [--install] [--without-missing] [NAME..]. It takes the program and
# the library that are built here, or else those of release/. With names of crates and the kit, `rt ci NAME..` comes first.
# --install first installs by apt-get what scripts need and isn't here. A script that is left out for lack of a tool makes the
# status 1, unless --without-missing accepts it. What needs the Rattle kit isn't counted where there is none. It lists what it left out
# and why. The last line is 'N passed, M failed', and ', K skipped' where some were left out.
set -uo pipefail
cd "$(dirname "$0")/.." || exit 1
top=$PWD
work=$(mktemp -d)
trap 'rm -rf "$work" ${borrowed:+"$top/c/out"}' EXIT
borrowed=
passed=0
failed=0
left_out=()
not_counted=()
install=
without_missing=
while [[ ${1-} == --* ]]; do
    case $1 in
        --install) install=yes ;;
        --without-missing) without_missing=yes ;;
        *) echo "tests/quick.sh: its words are --install, --without-missing and names of crates, not $1" >&2; exit 2 ;;
    esac
    shift
done

# has COMMAND..: whether all are there.
has() {
    local one
    for one in "$@"; do
        command -v "$one" > /dev/null 2>&1 || return 1
    done
}

# run COMMAND..: counts how it ends; what it prints is shown.
run() {
    local start=$SECONDS
    if "$@"; then
        passed=$((passed + 1))
        echo "passed in $((SECONDS - start)) s: $*"
    else
        failed=$((failed + 1))
        echo "FAILED: $*"
    fi
}

# needs COMMANDS COMMAND..: runs a script if the commands, joined by blanks, are there.
needs() {
    local commands=$1
    shift
    # shellcheck disable=SC2086
    if has $commands; then
        run "$@"
    else
        left_out+=("$1: it needs $commands")
    fi
}

# needs_kit FILE COMMANDS COMMAND..: the same of a script that needs the kit, or this file that only the kit makes.
needs_kit() {
    if [ -e "$1" ]; then
        needs "${@:2}"
    elif has rt; then
        left_out+=("$3: it needs $1")
    else
        not_counted+=("$3: it needs the kit")
    fi
}

# The packages of Debian that have what scripts need and isn't here.
missing_packages() {
    has python3 && python3 -c 'import ensurepip, venv' 2> /dev/null || echo python3 python3-venv
    has cc || echo gcc libc6-dev
    has c++ || echo g++
    has nm readelf || echo binutils
    has node || echo nodejs
    has git || echo git
}

if [ -n "$install" ] && packages=$(missing_packages | xargs) && [ -n "$packages" ]; then
    # shellcheck disable=SC2086
    tests/apt_get.sh $packages || exit 1
fi

# The built program, or that of the release.
program=$top/crates/auction_cli/out/auction_cli
if [ ! -x "$program" ]; then
    program=$top/release/auction_cli
fi
# borrow MACHINE FOLDER: the library of the release.
borrow() {
    mkdir -p "$work/$1" "$2"
    tar -xzf release/nushbaret-*-linux-"$1".tar.gz -C "$work/$1"
    cp "$work/$1/lib/libnushbaret.a" "$2/"
    cp -L "$work/$1/lib/libnushbaret.so" "$2/"
    cp "$work/$1/lib/nushbaret/nushbaret/_extension.abi3.so" "$2/" 2> /dev/null || echo "left out: the extension for $1, which release/ hasn't"
    ln -sf libnushbaret.so "$2/libnushbaret.so.$(cut -d. -f1 VERSION)"
}

# The built library, or for this run that of the release.
if [ ! -e c/out/libnushbaret.so ] || [ ! -e c/out/libnushbaret.a ]; then
    borrowed=yes
    borrow x86_64 c/out
    borrow aarch64 c/out/aarch64
fi

if [ $# -gt 0 ] && has rt; then
    run rt ci "$@"
elif [ $# -gt 0 ]; then
    left_out+=("rt ci $*: it needs the kit")
fi
run tests/statuses.sh "$program"
run tests/interrupts.sh "$program"
needs python3 tests/progress.sh "$program"
needs cc tests/refused_growths.sh "$program"
needs_kit "$(type -P rt)" cc tests/programs.sh
needs 'cc c++ python3 nm' tests/c.sh built
needs python3 tests/pages.py "$program"
needs python3 tests/python.sh
needs python3 tests/planted.py
needs python3 tests/lint.sh
needs_kit c/out/windows/nushbaret.dll 'cc python3' tests/windows.sh
needs 'python3 node' tests/page.sh
needs 'python3 git readelf' tests/release.sh
for one in "${left_out[@]}"; do
    echo "left out: $one"
done
for one in "${not_counted[@]}"; do
    echo "not counted: $one"
done
echo "$passed passed, $failed failed${left_out:+, ${#left_out[@]} skipped}"
[ "$failed" = 0 ] && { [ ${#left_out[@]} = 0 ] || [ -n "$without_missing" ]; }
