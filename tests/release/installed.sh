#!/usr/bin/env bash
# Installs a Debian package by dpkg, uses it and removes it, over copies of the system's folders that end with this script: it
# needs a mount namespace of its own, as by unshare -m tests/release/installed.sh PACKAGE VERSION ROSTER. Ends with 3 where
# no folder can be laid over another here. Prints the plan of the roster.
set -euo pipefail
package=$(realpath "$1")
version=$2
roster=$(realpath "$3")
packages=/usr/lib/python3/dist-packages

stop() {
    echo "installed.sh: $*"
    exit 1
}

# Lays an empty folder over each folder that dpkg writes to.
lay() {
    local place over
    over=$(mktemp -d)
    mount -t tmpfs none "$over" || return
    for place in usr var etc; do
        mkdir "$over/$place" "$over/$place.work"
        mount -t overlay overlay -o "lowerdir=/$place,upperdir=$over/$place,workdir=$over/$place.work" "/$place" || return
    done
}

[ "$(readlink /proc/self/ns/mnt)" != "$(readlink /proc/1/ns/mnt)" ] || stop 'run this by unshare -m'
lay > /dev/null 2>&1 || exit 3
# Other packages that it depends on may be missing, and no pages are indexed.
dpkg --install --no-triggers --force-depends "$package" > /dev/null
cd /
[ "$(/usr/bin/nushbaret --version)" = "nushbaret $version" ] || stop 'nushbaret --version'
[ "$(/usr/bin/python3 -c 'import importlib.metadata as metadata; print(metadata.version("nushbaret"))')" = "$version" ] || stop 'metadata'
/usr/bin/nushbaret "$roster"
dpkg --remove --no-triggers nushbaret > /dev/null
[ ! -e "$packages/nushbaret" ] && [ ! -e /usr/bin/nushbaret ] || stop "left after its removal: $(ls "$packages/nushbaret" /usr/bin/nushbaret 2>&1)"
