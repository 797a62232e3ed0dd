#!/usr/bin/env bash
# Packs what has been proved and built, and proves nothing itself: release/make.sh [FOLDER]. FOLDER, which is else release/,
# gets the program; the roster page for browsers; for x86-64 and for 64-bit ARM a wheel, a tarball in the layout of a prefix,
# and a Debian package; for Windows a wheel, and a zip of the library; SOURCE and SHA256SUMS. The program is for x86-64 alone.
# The same sources and tools give the same bytes, wherever and whenever it runs; it takes some seconds.
#     release/make.sh --source
# prints what SOURCE would say here.
#
# Needs the built program, libraries and page (./prove, rt run in crates/auction_cli, c/build.sh, c/build.sh --target aarch64,
# c/build_windows.sh and page/build.sh, or the gate), and python3, git, binutils, GNU tar and gzip.
set -euo pipefail
export LC_ALL=C SOURCE_DATE_EPOCH=0 PYTHONDONTWRITEBYTECODE=1
umask 022
top=$(cd "$(dirname "$0")/.." && pwd)
parts=$top/release/parts
version=$(cat "$top/VERSION")
major=${version%%.*}
machines='x86_64 aarch64'
# What the C library must be at least for the library.
library_glibc=2.17
windows=$top/c/out/windows
page=$top/page/out/nushbaret.html
most_of_page=600000

# choose MACHINE: sets what differs between machines; there is no program where `program` is empty.
choose() {
    machine=$1
    multiarch=$1-linux-gnu
    case $1 in
    x86_64) architecture=amd64 program=$top/crates/auction_cli/out/auction_cli library=$top/c/out/libnushbaret glibc=2.34 ;;
    aarch64) architecture=arm64 program= library=$top/c/out/aarch64/libnushbaret glibc=$library_glibc ;;
    esac
}

stop() {
    echo "release/make.sh: $*" >&2
    exit 1
}

# The sum of what the release is made of: the contents of the files that git knows, or of all where there is no git.
sources() {
    local paths=(crates c page python crates.txt VERSION LICENSE-APACHE LICENSE-CRATES LICENSE-MIT release/make.sh release/parts
        docs/PYTHON.md docs/ROSTERS.md docs/RULES.md examples)
    cd "$top"
    if [ "$(git rev-parse --show-prefix 2> /dev/null)" = '' ] && git ls-files --error-unmatch VERSION > /dev/null 2>&1; then
        git ls-files -z -- "${paths[@]}"
    else
        find "${paths[@]}" -type f -not -path '*/out/*' -not -path '*/__pycache__/*' -print0
    fi | sort -z | xargs -0 sha256sum | sha256sum | cut -d ' ' -f 1
}

# The first line that a tool prints about itself.
told() {
    { "$@" 2> /dev/null || echo none; } | head -n 1
}

# The C library that the library for ARM is linked with.
arm_library() {
    told grep -a -o -m 1 'GNU C Library ([^)]*)[^,]*' "$(aarch64-linux-gnu-gcc -print-file-name=libc.so.6 2> /dev/null)"
}

# What a release is made of and by. Compilers, linkers and packers write bytes of it.
source_text() {
    echo "nushbaret $version"
    echo "sources: $(sources)"
    echo "kit: $(told rt version)"
    echo "compiler: $(told cc --version)"
    echo "binutils: $(told ld --version)"
    echo "C library: $(told ldd --version)"
    echo "for ARM: $(told aarch64-linux-gnu-gcc --version), $(told aarch64-linux-gnu-ld --version), $(arm_library)"
    echo "for Windows: $(told x86_64-w64-mingw32-gcc --version), $(told x86_64-w64-mingw32-ld --version)"
    echo "Python.h: $(told python3 -c 'import re, sysconfig; print(re.search(r"PY_VERSION +.(\S+)\"", open(sysconfig.get_path("include") + "/patchlevel.h").read())[1])')"
    echo "packers: $(told tar --version), $(told gzip --version), zlib $(told python3 -c 'import zlib; print(zlib.ZLIB_RUNTIME_VERSION)')"
}

# The newest version of the C library that a file's symbols need.
needed_glibc() {
    readelf -W --dyn-syms "$1" | sed -n 's/.*@GLIBC_\([0-9.]*\).*/\1/p' | sort -V | tail -n 1
}

# needs_only FILE GLIBC: stops where the file needs another library than that of C, or a newer one.
needs_only() {
    local libraries needed
    libraries=$(readelf -d "$1" | sed -n 's/.*(NEEDED).*\[\(.*\)\]/\1/p')
    [ "$libraries" = libc.so.6 ] || stop "${1#"$top"/} needs other libraries than libc.so.6: $libraries"
    needed=$(needed_glibc "$1")
    [ "$(printf '%s\n' "$needed" "$2" | sort -V | tail -n 1)" = "$2" ] || stop "${1#"$top"/} needs glibc $needed, and $2 is promised"
}

# Whether the page is there, and is of this version.
look_at_the_page() {
    [ -e "$page" ] || stop "${page#"$top"/} isn't there: run page/build.sh first"
    grep -q "id=\"version\">$version<" "$page" || stop "the page isn't of version $version: run page/build.sh"
    [ "$(stat -c %s "$page")" -le "$most_of_page" ] || stop "the page has more than $most_of_page bytes"
}

# Whether the library for Windows is there. tests/windows.sh looks at its version.
look_at_windows() {
    for file in nushbaret.dll nushbaret.lib; do
        [ -e "$windows/$file" ] || stop "c/out/windows/$file isn't there: run c/build_windows.sh first"
    done
}

# Whether the program is there, is of this version, and needs no newer C library than is promised.
look_at_the_program() {
    [ -e "$program" ] || stop "${program#"$top"/} isn't there: run ./prove, and rt run in crates/auction_cli first"
    [ "$("$program" --version)" = "auction_cli $version" ] || stop "the program isn't of version $version: build it again"
    needs_only "$program" "$glibc"
}

# The same of a machine's library, which is for this machine.
look_at_the_library() {
    local words='' soname file
    [ "$machine" = x86_64 ] || words=" --target $machine"
    extension=$(dirname "$library")/_extension.abi3.so
    for file in "$library.so" "$library.a" "$extension"; do
        [ -e "$file" ] || stop "${file#"$top"/} isn't there: run c/build.sh$words first (the extension needs Python.h)"
    done
    [ -z "$(find "$top/python/extension" -newer "$extension" -name '*.[ch]')" ] || stop "${extension#"$top"/} is older than its source: run c/build_extension.sh$words"
    soname=$(readelf -d "$library.so" | sed -n 's/.*(SONAME).*\[\(.*\)\]/\1/p')
    [ "$soname" = "libnushbaret.so.$major" ] || stop "the SONAME of ${library#"$top"/}.so is '$soname', not libnushbaret.so.$major: run c/build.sh$words"
    for file in "$library.so" "$extension"; do
        readelf -h "$file" | sed 's/X86-64/x86_64/; s/AArch64/aarch64/' | grep "Machine:.*$machine" > /dev/null || stop "${file#"$top"/} is for another machine"
        needs_only "$file" "$library_glibc"
    done
}

# filled PART LIBDIR PREFIX PYTHON: a file of parts/ with the places for what differs filled in. UP leads from its folder to the prefix.
filled() {
    local up=../../.. program_line='/^@PROGRAM@/d'
    [ "$2" = lib ] || up=../../../..
    [ -z "$program" ] || program_line='s|^@PROGRAM@||'
    sed -e "s|@VERSION@|$version|g; s|@MAJOR@|$major|g; s|@LIBDIR@|$2|g; s|@PREFIX@|$3|g; s|@UP@|$up|g; s|@GLIBC@|$glibc|g" \
        -e "s|@ARCHITECTURE@|$architecture|g; s|@PYTHON@|${4-}|g" -e "$program_line" "$parts/$1"
}

# stage ROOT LIBDIR PREFIX PACKAGES PYTHON: all of it under a root. PREFIX is what pkg-config shows, PACKAGES is the folder for the Python
# package, and PYTHON runs the command.
stage() {
    local root=$1 lib=$1/$2 share=$1/share file
    mkdir -p "$root/bin" "$root/include" "$lib/pkgconfig" "$lib/cmake/nushbaret" "$share/man" "$share/doc/nushbaret/examples" "$root/$4"
    [ -z "$program" ] || cp "$program" "$root/bin/"
    filled nushbaret "$2" "$3" "$5" > "$root/bin/nushbaret"
    cp -r "$work/wheel/nushbaret" "$root/$4/"
    cp "$top/c/nushbaret.h" "$root/include/"
    cp "$library.so" "$lib/libnushbaret.so.$major"
    ln -s "libnushbaret.so.$major" "$lib/libnushbaret.so"
    ln -sf "$(realpath -m --relative-to="$root/$4/nushbaret" "$lib/libnushbaret.so.$major")" "$root/$4/nushbaret/libnushbaret.so"
    cp "$library.a" "$lib/"
    filled nushbaret.pc "$2" "$3" > "$lib/pkgconfig/nushbaret.pc"
    for file in nushbaret-config.cmake nushbaret-config-version.cmake; do
        filled "$file" "$2" "$3" > "$lib/cmake/nushbaret/$file"
    done
    python3 "$parts/manual.py" "$top/c/nushbaret.h" "$version" "$share/man" ${program:+"$program"}
    python3 "$parts/completions.py" "$share" ${program:+"$program"}
    cp "$top"/c/example*.c "$share/doc/nushbaret/examples/"
    ln -s "$(realpath -m --relative-to="$share/doc/nushbaret" "$root/$4/nushbaret/guide")" "$share/doc/nushbaret/guide"
    cp "$top"/LICENSE-* "$share/doc/nushbaret/"
    find "$root" -type f -exec chmod 644 {} +
    chmod 755 "$root"/bin/*
}

# packed WORD..: a compressed archive on standard output, of the names on standard input; the same bytes for the same files.
packed() {
    tar --format=gnu --owner=0 --group=0 --numeric-owner --mtime=@0 --no-recursion "$@" -c -T - | gzip -9n
}

# The tarball; folders aren't in it, so that unpacking leaves those of a prefix as they are.
tarball() {
    stage "$work/prefix" lib '${pcfiledir}/../..' lib/nushbaret '/usr/bin/env python3'
    (cd "$work/prefix" && find . ! -type d | sed 's|^\./||' | sort | packed) > "$made/nushbaret-$version-linux-$machine.tar.gz"
}

# member FILE: a file as an archive of `ar` holds it.
member() {
    printf '%-16s%-12d%-6d%-6d%-8s%-10d`\n' "$(basename "$1")" 0 0 0 100644 "$(stat -c %s "$1")"
    cat "$1"
    if [ $(($(stat -c %s "$1") % 2)) = 1 ]; then printf '\n'; fi
}

# The Debian package, in the same layout under /usr, where Debian has its libraries and completions.
package() {
    local root=$work/package share=$work/package/usr/share packages=lib/python3/dist-packages size
    stage "$root/usr" "lib/$multiarch" /usr "$packages" /usr/bin/python3
    cp -r "$work/wheel/nushbaret-$version.dist-info" "$root/usr/$packages/"
    rm -r "$root/usr/$packages/nushbaret-$version.dist-info"/{RECORD,licenses}
    echo dpkg > "$root/usr/$packages/nushbaret-$version.dist-info/INSTALLER"
    mkdir -p "$share/zsh/vendor-completions"
    mv "$share"/zsh/site-functions/* "$share/zsh/vendor-completions/"
    rmdir "$share/zsh/site-functions"
    find "$share/man" -type f -exec gzip -9n {} +
    install -m 644 "$parts/copyright" "$share/doc/nushbaret/"
    mkdir "$work/control"
    size=$(find "$root" -type f -printf '%s\n' | awk '{ kilobytes += int(($1 + 1023) / 1024) } END { print kilobytes }')
    filled control "lib/$multiarch" /usr | sed "s|@SIZE@|$size|" > "$work/control/control"
    echo 'activate-noawait ldconfig' > "$work/control/triggers"
    install -m 755 "$parts/postinst" "$parts/prerm" "$work/control/"
    (cd "$root" && find usr -type f | sort | xargs md5sum) > "$work/control/md5sums"
    (cd "$work/control" && printf '%s\n' . ./control ./md5sums ./postinst ./prerm ./triggers | packed) > "$work/control.tar.gz"
    (cd "$root" && find . | sort | packed) > "$work/data.tar.gz"
    echo 2.0 > "$work/debian-binary"
    {
        printf '!<arch>\n'
        member "$work/debian-binary"
        member "$work/control.tar.gz"
        member "$work/data.tar.gz"
    } > "$made/nushbaret_${version}_$architecture.deb"
}

# wheel PLATFORM LIBRARY: the wheel, by the package's own backend, and what it holds in a folder.
wheel() {
    local name=nushbaret-$version-py3-none-$1.whl
    (cd "$top/python/building" && python3 -c 'import sys, nushbaret_build as build
if build.VERSION != sys.argv[2]:
    sys.exit("release/make.sh: python/pyproject.toml is of version %s, and VERSION is %s" % (build.VERSION, sys.argv[2]))
build.PLATFORM = sys.argv[3]
build.build_wheel(sys.argv[1])' "$made" "$version" "$1")
    rm -rf "$work/wheel"
    python3 -m zipfile -e "$made/$name" "$work/wheel"
    cmp -s "$2" "$work/wheel/nushbaret/$(basename "$2")" || stop "python/nushbaret has a library of its own, which isn't ${2#"$top"/}"
}

# The zip for Windows, in the layout of a prefix.
zip_for_windows() {
    local root=$work/windows cmake=$work/windows/lib/cmake/nushbaret share=$work/windows/share/doc/nushbaret
    mkdir -p "$root/bin" "$root/include" "$cmake" "$share/examples"
    cp "$windows/nushbaret.dll" "$root/bin/"
    cp "$windows/nushbaret.lib" "$root/lib/"
    cp "$top/c/nushbaret.h" "$root/include/"
    filled nushbaret-config-windows.cmake lib '' > "$cmake/nushbaret-config.cmake"
    filled nushbaret-config-version.cmake lib '' > "$cmake/nushbaret-config-version.cmake"
    cp "$top"/c/example*.c "$share/examples/"
    cp "$top"/LICENSE-* "$share/"
    python3 "$parts/zip.py" "$root" "$made/nushbaret-$version-windows-x86_64.zip"
}

# pack MACHINE: all that is made for it.
pack() {
    choose "$1"
    rm -rf "$work"/{prefix,package,control}
    wheel "manylinux2014_$machine" "$library.so"
    tarball
    package
}

if [ "${1-}" = --source ] && [ $# = 1 ]; then
    source_text
    exit
fi
[ $# -le 1 ] && [[ ${1-} != -* ]] || { echo 'usage: release/make.sh [FOLDER | --source]' >&2; exit 2; }
grep -q "^#define NUSHBARET_VERSION \"$version\"" "$top/c/nushbaret.h" || stop "c/nushbaret.h isn't of version $version"
for each in $machines; do
    choose "$each"
    [ -z "$program" ] || look_at_the_program
    look_at_the_library
done
look_at_the_page
look_at_windows
mkdir -p "${1:-$top/release}"
folder=$(cd "${1:-$top/release}" && pwd)
work=$(mktemp -d)
trap 'rm -rf "$work"' EXIT
made=$work/made
mkdir "$made"
source_text > "$made/SOURCE"
for each in $machines; do
    pack "$each"
done
wheel win_amd64 "$windows/nushbaret.dll"
zip_for_windows
install -m 755 "$top/crates/auction_cli/out/auction_cli" "$made/auction_cli"
install -m 644 "$page" "$made/nushbaret.html"
(cd "$made" && sha256sum -- * > "$work/SHA256SUMS")
# What an older release left goes; then all of the new one comes.
if [ -f "$folder/SHA256SUMS" ]; then
    (cd "$folder" && sed 's/^[0-9a-f]*  //' SHA256SUMS | grep -v / | xargs rm -f -- SHA256SUMS)
fi
cp -p "$made"/* "$work/SHA256SUMS" "$folder/"
cat "$folder/SOURCE"
(cd "$made" && stat -c '%s bytes: %n' -- *)
