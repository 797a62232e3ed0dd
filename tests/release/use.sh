#!/usr/bin/env bash
# Installs and uses a release: the wheel in a fresh environment, the tarball in a fresh home by README's line, and the package
# under another root and by dpkg; a roster is planned with each, and with the last two a problem is solved and verified, and
# c/example.c built as C99 and as C++11, by pkg-config and by CMake, and run. The module of the roster page is run by Node. Of
# what is for ARM and for Windows, pip takes the wheel by its rules for that machine, and c/example.c is built and run under emulation
# and under Wine. tests/release.sh calls it, as
# tests/release/use.sh FOLDER WORK: what is wrong is printed and goes to WORK/failed, what was used to WORK/ran, and what the
# tools for are missing to WORK/without. Where KIT is set, that folder must be out of sight.
set -uo pipefail
top=$(cd "$(dirname "$0")/../.." && pwd)
folder=$1
work=$2
read -r _ version < "$folder/SOURCE"
packages=lib/python3/dist-packages

fail() {
    echo "$*" | tee -a "$work/failed"
}

ran() {
    grep -qxF "$*" "$work/ran" || echo "$*" >> "$work/ran"
}

without() {
    grep -qxF "$*" "$work/without" || echo "$*" >> "$work/without"
}

has() {
    [ -x "$(type -P "$1")" ]
}

# expect NAME WANTED COMMAND..: the command succeeds, and prints lines of this pattern.
expect() {
    local name=$1 wanted=$2 printed
    shift 2
    if ! printed=$("$@" 2>&1) || ! [[ $printed =~ ^$wanted$ ]]; then
        fail "$name: wanted $wanted, got $printed"
    fi
}

# done_by NAME COMMAND..: what it prints is shown where it fails.
done_by() {
    local name=$1
    shift
    "$@" > "$work/log" 2>&1 || { fail "$name: $(tail -20 "$work/log")"; return 1; }
}

hidden() {
    if has rt; then fail "the kit is on the path: $(type -P rt)"; fi
    if [ -n "${KIT-}" ] && ! grep -qx 'a mount namespace' "$work/without" && [ -e "$KIT/bin" ]; then fail "the kit is in sight: $KIT"; fi
}

# What needs the kit says so in one sentence.
without_kit() {
    local script
    for script in prove page/build.sh c/build_windows.sh $(if has cc; then echo c/build.sh; fi); do
        "$top/$script" > "$work/log" 2>&1 && fail "$script succeeds without the kit"
        [ "$(cat "$work/log")" = "$script: the Rattle kit isn't on the path (docs/CONTRIBUTING.md)" ] || fail "$script without the kit: $(cat "$work/log")"
    done
}

# library FILE MACHINE: a library is for this machine, and needs no newer C library than the wheels promise.
library() {
    local newest
    if has readelf; then
        readelf -h "$1" | grep "Machine:.*$2" > /dev/null
        newest=$(printf '%s\n' 2.17 $(readelf -W --dyn-syms "$1" | grep -o 'GLIBC_[0-9.]*' | cut -d _ -f 2) | sort -V | tail -n 1)
        [ "$newest" = 2.17 ] || fail "$1 needs glibc $newest"
    fi
}

roster=$'least hours: 12\.00\nAda: early, 2\.50\nBen: night, 1\.75\nCleo: late, 2\.00\nDan: weekend, 5\.00\nEve: office, 0\.75'

# The wheel that pip takes for this machine: a roster is planned by the command that it installs.
wheel() {
    python3 -m zipfile -e "$folder/nushbaret-$version-py3-none-manylinux2014_x86_64.whl" "$work/unpacked"
    library "$work/unpacked/nushbaret/libnushbaret.so" X86-64
    library "$work/unpacked/nushbaret/_extension.abi3.so" X86-64
    if python3 -m venv "$work/planner" > "$work/log" 2>&1; then
        done_by 'pip install' "$work/planner/bin/pip" --disable-pip-version-check install --quiet --no-index --find-links "$folder" nushbaret || return
        expect 'nushbaret --version' "nushbaret $version" "$work/planner/bin/nushbaret" --version
        expect 'nushbaret' "$roster" "$work/planner/bin/nushbaret" "$top/examples/named_roster.csv"
        expect 'import' "$work/planner/.* 5" "$work/planner/bin/python" -I -c 'import nushbaret; print(nushbaret.__file__, nushbaret.solve([[1, 2], [3, 5]]).cost)'
        expect 'the extension' "builtin_function_or_method .*\[0, 1\].*" "$work/planner/bin/python" -I -c \
            'import nushbaret; print(type(nushbaret.linear_sum_assignment).__name__, nushbaret.linear_sum_assignment([[1, 2.5], [3, 5]], True))'
        guide "$work/planner/bin/nushbaret"
        expect 'pip show' '.*Topic :: Office/Business :: Scheduling.*' "$work/planner/bin/pip" --disable-pip-version-check show --verbose nushbaret
        ran 'the wheel in a venv'
        wheel_for_arm
    else
        expect 'nushbaret' "$roster" env "PYTHONPATH=$work/unpacked" python3 -m nushbaret "$top/examples/named_roster.csv"
        ran 'the wheel unpacked'
        without 'a venv'
    fi
}

# The wheel for ARM, which pip takes by its rules for that machine.
wheel_for_arm() {
    done_by 'pip install for ARM' "$work/planner/bin/pip" --disable-pip-version-check install --quiet --no-index --find-links "$folder" \
        --platform manylinux2014_aarch64 --only-binary=:all: --target "$work/for_arm" nushbaret || return
    library "$work/for_arm/nushbaret/libnushbaret.so" AArch64
    library "$work/for_arm/nushbaret/_extension.abi3.so" AArch64
    ran 'the wheel for ARM by pip'
}

# program PATH: a problem is solved, and the report verified.
program() {
    expect "$1 --version" "auction_cli $version" "$1" --version
    "$1" solve --prices --input "$top/examples/eight_persons.txt" > "$work/report" || fail "$1 solve: status $?"
    expect "$1 verify" 'verified cost 224' "$1" verify --input "$top/examples/eight_persons.txt" "$work/report"
    expect "$1 solve --method paths" $'sense max\ncost 237\n.*' "$1" solve --max --method paths --input "$top/examples/sales.txt"
}

example=$'cost [0-9]+: person 1 has object 2, person 2 has object 1\nproved [a-z]+'

# flags_of NAME WORD..: what pkg-config says that a caller needs; the words set what it looks at.
flags_of() {
    local name=$1
    shift
    expect "$name: pkg-config" "$version" env "$@" pkg-config --modversion nushbaret
    flags=$(env "$@" pkg-config --cflags --libs nushbaret) || { fail "$name: pkg-config gives no flags"; return 1; }
    flags="-Wall -Wextra -Werror $flags"
}

# packed_examples NAME FOLDER: the examples in C are in the package, each as in c/.
packed_examples() {
    local each
    for each in "$top"/c/example*.c; do
        cmp -s "$each" "$2/$(basename "$each")" || fail "$1: $(basename "$each") isn't in its examples, or is another"
    done
}

# pkg_config NAME LIB WORD..: builds the worked example as C99 and as C++11, and that of rows, with these flags.
pkg_config() {
    local name=$1 lib=$2 flags
    shift 2
    flags_of "$name" "$@" || return
    done_by "$name: C99" cc -std=c99 "$top/c/example.c" -o "$work/c99" $flags \
        && expect "$name: C99" "$example" env LD_LIBRARY_PATH="$lib" "$work/c99"
    done_by "$name: C++11" c++ -x c++ -std=c++11 "$top/c/example.c" -o "$work/cpp11" $flags \
        && expect "$name: C++11" "$example" env LD_LIBRARY_PATH="$lib" "$work/cpp11"
    done_by "$name: rows" cc -std=c99 "$top/c/example_rows.c" -o "$work/rows" $flags \
        && expect "$name: rows" $'cost -1, and no plan costs less than -1\nno plan' env LD_LIBRARY_PATH="$lib" "$work/rows"
    if has readelf; then
        readelf -d "$work/c99" | grep -q "libnushbaret.so.${version%%.*}\]" || fail "$name: a program doesn't want libnushbaret.so.${version%%.*}"
    fi
}

# cmake_builds NAME PREFIX: the same by CMake's find_package, over the shared library and over the archive.
cmake_builds() {
    local built=$work/cmake-$1 each
    done_by "$1: CMake" cmake -S "$top/tests/release" -B "$built" -DCMAKE_PREFIX_PATH="$2" -DWANTED="$version" -DEXAMPLE="$top/c/example.c" || return
    done_by "$1: CMake builds" cmake --build "$built" || return
    for each in c99 cpp11 archive; do
        expect "$1: CMake, $each" "$example" "$built/$each"
    done
    cmake -S "$top/tests/release" -B "$built-later" -DCMAKE_PREFIX_PATH="$2" -DWANTED=99.0 -DEXAMPLE="$top/c/example.c" > /dev/null 2>&1 \
        && fail "$1: CMake takes it for version 99"
}

# used NAME PREFIX LIB WORD..: the program and the library of a prefix; the words set what pkg-config looks at.
used() {
    local name=$1 prefix=$2 lib=$3
    shift 3
    program "$prefix/bin/auction_cli"
    cmp -s "$prefix/bin/auction_cli" "$folder/auction_cli" || fail "$name: another program"
    packed_examples "$name" "$prefix/share/doc/nushbaret/examples"
    if ! has cc || ! has c++; then
        without 'cc or c++'
        return
    fi
    if has pkg-config; then
        pkg_config "$name" "$lib" "$@"
        ran 'C99 and C++11 by pkg-config'
    else
        without pkg-config
    fi
    if has cmake && { has make || has ninja; }; then
        cmake_builds "$name" "$prefix"
        ran 'by CMake'
    else
        without CMake
    fi
}

# on_arm NAME LIB WORD..: the worked example over the library for ARM, where its compiler and qemu are.
on_arm() {
    local name=$1 lib=$2 flags root
    shift 2
    library "$lib/libnushbaret.so" AArch64
    if ! has aarch64-linux-gnu-gcc || ! has qemu-aarch64 || ! has pkg-config; then
        without 'a compiler and qemu for ARM'
        return
    fi
    root=$(dirname "$(dirname "$(aarch64-linux-gnu-gcc -print-file-name=libc.so.6)")")
    flags_of "$name" "$@" || return
    done_by "$name: C99" aarch64-linux-gnu-gcc -std=c99 "$top/c/example.c" -o "$work/c99" $flags \
        && expect "$name: C99" "$example" env LD_LIBRARY_PATH="$lib" qemu-aarch64 -L "$root" "$work/c99"
    done_by "$name: archive" aarch64-linux-gnu-gcc -std=c99 "$top/c/example.c" "$lib/libnushbaret.a" -static -o "$work/static" "-I$lib/../include" "-I$lib/../../include" \
        && expect "$name: archive" "$example" qemu-aarch64 "$work/static"
    ran 'C99 for ARM under qemu'
}

# planned NAME WORD..: these words plan the roster, from any folder.
planned() {
    local name=$1
    shift
    (cd / && expect "$name: nushbaret --version" "nushbaret $version" "$@" --version && expect "$name: nushbaret" "$roster" "$@" "$top/examples/named_roster.csv")
}

# The tarballs: that of this machine as README says, in a home that has no .local yet.
tarball() {
    local line lib=$work/arm_prefix/lib
    ln -s "$folder" "$work/release"
    mkdir "$work/home" "$work/arm_prefix"
    line=$(sed -n 's/^    \(.*tar -xzf release.*\)$/\1/p' "$top/README.md")
    (cd "$work" && HOME=$work/home done_by 'tarball' bash -euc "$line") || return
    prefix=$work/home/.local
    planned tarball "$prefix/bin/nushbaret"
    guide "$prefix/bin/nushbaret"
    [ -s "$prefix/share/doc/nushbaret/guide/rosters.html" ] || fail 'the tarball has no guide in share/doc'
    ran 'the tarball'
    used tarball "$prefix" "$prefix/lib" PKG_CONFIG_PATH="$prefix/lib/pkgconfig"
    done_by 'tarball for ARM' tar -xzf "$folder/nushbaret-$version-linux-aarch64.tar.gz" -C "$work/arm_prefix" || return
    ran 'the tarball for ARM'
    on_arm 'tarball for ARM' "$lib" PKG_CONFIG_LIBDIR="$lib/pkgconfig"
}

# unpacked_package MACHINE ARCHITECTURE GLIBC ROOT: the package of a machine under a root, after its sums and what it depends on.
unpacked_package() {
    local file=$folder/nushbaret_${version}_$2.deb root=$4
    mkdir "$root"
    if has dpkg-deb; then
        expect 'package' "$version" dpkg-deb -f "$file" Version
        expect 'package' "$2" dpkg-deb -f "$file" Architecture
        expect 'package' "libc6 \(>= $3\), python3 \(>= 3\.9\)" dpkg-deb -f "$file" Depends
        done_by 'package' dpkg-deb -x "$file" "$root" || return
        (cd "$root" && dpkg-deb -I "$file" md5sums | md5sum --quiet -c) || fail 'package: other sums'
    else
        (cd "$work" && ar x "$file" data.tar.gz && tar -xzf data.tar.gz -C "$root") || { fail 'package: not an archive'; return 1; }
        without dpkg-deb
    fi
    [ "$(head -n 1 "$root/usr/bin/nushbaret")" = '#!/usr/bin/python3' ] || fail "package: nushbaret by another Python"
}

# looks_at ROOT MACHINE: the words that set where pkg-config looks under a root.
looks_at() {
    printf '%s\n' "PKG_CONFIG_SYSROOT_DIR=$1" "PKG_CONFIG_LIBDIR=$1/usr/lib/$2-linux-gnu/pkgconfig" PKG_CONFIG_ALLOW_SYSTEM_CFLAGS=1 PKG_CONFIG_ALLOW_SYSTEM_LIBS=1
}

package() {
    local root=$work/root arm=$work/arm_root
    unpacked_package x86_64 amd64 '2\.34' "$root" || return
    planned package env "PYTHONPATH=$root/usr/$packages" python3 "$root/usr/bin/nushbaret"
    guide env "PYTHONPATH=$root/usr/$packages" python3 "$root/usr/bin/nushbaret"
    [ -s "$root/usr/share/doc/nushbaret/guide/rosters.html" ] || fail 'the package has no guide in share/doc'
    ran 'the package'
    used package "$root/usr" "$root/usr/lib/x86_64-linux-gnu" $(looks_at "$root" x86_64)
    installed
    unpacked_package aarch64 arm64 '2\.17' "$arm" || return
    ran 'the package for ARM'
    on_arm 'package for ARM' "$arm/usr/lib/aarch64-linux-gnu" $(looks_at "$arm" aarch64)
}

# The package by dpkg, over copies of the system's folders that nobody else sees.
installed() {
    local printed status=0
    if ! has dpkg || ! has unshare || ! /usr/bin/python3 -c 'import sys; sys.exit(sys.version_info < (3, 9))' 2> /dev/null; then
        without 'dpkg or its Python'
        return
    fi
    printed=$(unshare -m "$top/tests/release/installed.sh" "$folder/nushbaret_${version}_amd64.deb" "$version" "$top/examples/named_roster.csv" 2>&1) || status=$?
    if [ "$status" = 3 ] || [[ $printed == unshare:* ]]; then
        without 'a namespace for dpkg'
    elif [ "$status" != 0 ] || ! [[ $printed =~ ^$roster$ ]]; then
        fail "installed by dpkg: status $status, $printed"
    else
        ran 'installed by dpkg'
    fi
}

# Removes the tarball's files as the page says.
removed() {
    local line
    line=$(sed -n 's/^    \(tar -tzf release.*\)$/\1/p' "$top/README.md")
    (cd "$work" && HOME=$work/home done_by 'removing the tarball' bash -euc "$line")
    [ -z "$(find "$prefix" ! -type d)" ] || fail "left after its removal: $(find "$prefix" ! -type d)"
}

# guide COMMAND..: whether the command prints the guide, with places of its page and its examples that are there.
guide() {
    local place
    "$@" --guide > "$work/guide" 2> "$work/log" || fail "--guide: status $?, $(cat "$work/log")"
    [ "$(head -n 1 "$work/guide")" = '# Rosters with names: the command' ] || fail "--guide prints $(head -n 1 "$work/guide")"
    for place in "$(sed -n 's/^This guide as a page: //p' "$work/guide")" "$(sed -n 's/^The examples in it: //p' "$work/guide")/week.csv"; do
        [ -s "$place" ] || fail "--guide: there is no $place"
    done
}

# The manual's pages without a warning; and they and the completions say what the help and the header do.
manual() {
    local page
    cd "$prefix/share/man" || return
    for page in man*/*; do
        if has man; then
            man --warnings -l "$page" > "$work/page" 2> "$work/log" < /dev/null
        elif has groff; then
            { grep -q '^\.so ' "$page" || groff -man -Tutf8 -ww "$page"; } > "$work/page" 2> "$work/log"
        else
            without 'man pages by man or groff'
            break
        fi
        [ ! -s "$work/log" ] || fail "$page: $(cat "$work/log")"
    done
    if has man || has groff; then ran 'man pages'; fi
    if has man; then
        expect 'man nushbaret' 'NUSHBARET\(1\).*' man -M "$prefix/share/man" nushbaret
        expect 'man 3 nushbaret' 'NUSHBARET\(3\).*' man -M "$prefix/share/man" 3 nushbaret
    fi
    cd "$top" || return
    python3 tests/release/words.py "$prefix/share" "$prefix/bin/nushbaret" "$prefix/include/nushbaret.h" "$prefix/bin/auction_cli" > "$work/log" 2>&1 \
        || fail "words: $(cat "$work/log")"
    python3 tests/release/words.py "$work/arm_prefix/share" "$prefix/bin/nushbaret" "$prefix/include/nushbaret.h" > "$work/log" 2>&1 \
        || fail "words of the tarball for ARM: $(cat "$work/log")"
    cmp -s "$prefix/share/man/man1/nushbaret.1" "$work/unpacked/nushbaret-$version.data/data/share/man/man1/nushbaret.1" || fail 'the wheel has another page'
    [ ! -d "$work/planner" ] || [ -e "$work/planner/share/man/man1/nushbaret.1" ] || fail 'pip puts no page'
    ran 'their words'
}

# The page's module solves drawn problems as a plain search does.
page() {
    if has node; then
        expect 'the page' "page: version $version, 200 problems as a plain search says, .*" \
            node "$top/tests/page/module.mjs" "$folder/nushbaret.html" 200
        ran 'the page by Node'
    else
        without node
    fi
}

# wheel_for_windows PREFIX: pip takes it by its rules for that platform, and it has the DLL of the zip.
wheel_for_windows() {
    [ -d "$work/planner" ] || return
    done_by 'pip install for Windows' "$work/planner/bin/pip" --disable-pip-version-check install --quiet --no-index \
        --find-links "$folder" --platform win_amd64 --only-binary=:all: --target "$work/for_windows" nushbaret || return
    cmp -s "$work/for_windows/nushbaret/nushbaret.dll" "$1/bin/nushbaret.dll" || fail 'the wheel for Windows has another DLL than the zip'
    ran 'the wheel for Windows by pip'
}

# The zip for Windows: the worked example by CMake, and run under Wine.
windows() {
    local prefix=$work/windows built=$work/cmake-windows wine
    done_by 'zip for Windows' python3 -m zipfile -e "$folder/nushbaret-$version-windows-x86_64.zip" "$prefix" || return
    ran 'the zip for Windows'
    packed_examples 'zip for Windows' "$prefix/share/doc/nushbaret/examples"
    wheel_for_windows "$prefix"
    if ! has x86_64-w64-mingw32-gcc || ! has cmake || ! { has make || has ninja; }; then
        without 'a compiler for Windows and CMake'
        return
    fi
    done_by 'CMake for Windows' cmake -S "$top/tests/release/windows" -B "$built" -DCMAKE_SYSTEM_NAME=Windows -DWANTED="$version" \
        -DCMAKE_C_COMPILER=x86_64-w64-mingw32-gcc -DEXAMPLE="$top/c/example.c" -Dnushbaret_DIR="$prefix/lib/cmake/nushbaret" || return
    done_by 'CMake builds for Windows' cmake --build "$built" || return
    ran 'C99 for Windows by CMake'
    wine=$(type -P wine64 || echo /usr/lib/wine/wine64)
    if [ -x "$wine" ]; then
        cp "$prefix/bin/nushbaret.dll" "$built/"
        expect 'example under Wine' "$example" env WINEDEBUG=-all WINEPREFIX="$work/wine" bash -c '"$1" "$2" 2> /dev/null | tr -d "\r"' \
            wine "$wine" "$built/example.exe"
        ran 'under Wine'
    else
        without Wine
    fi
}

completions() {
    local share=$prefix/share name
    ran 'completions of bash'
    if has zsh; then
        for name in auction_cli nushbaret; do
            done_by "completions of zsh: $name" zsh -f -c 'autoload -Uz compinit && compinit -u -d "$2" && source "$1" && whence -w "$3" && [[ $_comps[${3#_}] = $3 ]]' \
                zsh "$share/zsh/site-functions/_$name" "$work/zcompdump" "_$name"
        done
        ran 'of zsh'
    else
        without zsh
    fi
    if has fish; then
        expect 'completions of fish' $'auction\t.*\npaths\t.*' env HOME="$work" fish --no-config -c 'source $argv[1]; complete -C "auction_cli solve --method "' "$share/fish/vendor_completions.d/auction_cli.fish"
        expect 'completions of fish: nushbaret' $'--as-many-as-can\t.*' env HOME="$work" fish --no-config -c 'source $argv[1]; complete -C "nushbaret --as-"' "$share/fish/vendor_completions.d/nushbaret.fish"
        ran 'of fish'
    else
        without fish
    fi
}

prefix=
hidden
without_kit
wheel
tarball
package
manual
completions
page
windows
removed
exit 0
