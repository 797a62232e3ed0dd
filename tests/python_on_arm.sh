#!/usr/bin/env bash
# Runs Python for 64-bit ARM under qemu-aarch64: installs the wheel for ARM by pip's rules for that machine, plans the roster with it,
# and runs the tests of the Python package over c/out/aarch64/libnushbaret.so: tests/python_on_arm.sh RELEASE [TEST..]. RELEASE is the
# folder of a release, and TEST is a file of tests/python, else all of them.
# The tests that limit a process's memory are left out: qemu takes more.
# Needs qemu-user, pip, the library that c/build.sh --target aarch64 makes, and Debian's packages of Python for arm64, which it gets by
# apt-get download; for this, once: dpkg --add-architecture arm64 && apt-get update.
set -euo pipefail
top=$(cd "$(dirname "$0")/.." && pwd)
release=$(realpath "$1")
shift
work=$(mktemp -d)
trap 'rm -rf "$work"' EXIT
root=$work/root
python=$root/usr/bin/python3

# Unpacks Debian's Python for ARM. In the place of its command stands a script that runs it under qemu by its own name, so that a test
# that starts Python starts it for ARM too.
unpack() {
    local version package
    version=$(apt-cache depends python3:arm64 | sed -n 's/^ *Depends: \(python3\.[0-9]*\):arm64$/\1/p')
    mkdir "$root" "$work/packages"
    cd "$work/packages"
    apt-get download "$version:arm64" "$version-minimal:arm64" "lib$version-minimal:arm64" "lib$version-stdlib:arm64" libc6:arm64 \
        zlib1g:arm64 libexpat1:arm64 libffi8:arm64 libssl3:arm64 libuuid1:arm64 libbz2-1.0:arm64 liblzma5:arm64 libgcc-s1:arm64
    for package in *.deb; do
        dpkg -x "$package" "$root"
    done
    printf '#!/bin/sh\nexec qemu-aarch64 -L %q -0 "$0" %q "$@"\n' "$root" "$root/usr/bin/$version" > "$python"
    chmod +x "$python"
}

# The sources of the package and its tests, with the library for ARM in its place.
copy() {
    mkdir "$work/top"
    cd "$top"
    git ls-files -z -- VERSION LICENSE-\* c docs examples python tests README.md crates/assign_core/src/numbers.rt | xargs -0 cp --parents -t "$work/top"
    mkdir -p "$work/top/c/out"
    cp -r "$top/c/out/aarch64" "$work/top/c/out/"
    cp -P "$top"/c/out/aarch64/* "$work/top/c/out/"
}

unpack
copy
"$python" -c 'import platform; print("Python", platform.python_version(), "on", platform.machine())'
python3 -m pip --disable-pip-version-check install --quiet --no-index --find-links "$release" --platform manylinux2014_aarch64 \
    --only-binary=:all: --target "$work/wheel" nushbaret
PYTHONPATH=$work/wheel "$python" -m nushbaret "$top/examples/named_roster.csv"
cd "$work/top"
# qemu 7.2 loses memory wherever a program gives some back to the system, so Python keeps what it has.
export PYTHONMALLOC=malloc MALLOC_MMAP_MAX_=0 MALLOC_TRIM_THRESHOLD_=99999999999 NUSHBARET_EMULATED=yes
# The sessions of the pages run python3.
export PATH=$root/usr/bin:$PATH PYTHONPATH=$work/top/python PYTHONDONTWRITEBYTECODE=1
"$python" -m unittest discover -s tests/python -p "${1:-test_*.py}"
