#!/bin/sh
# Installs packages of Debian by apt-get, as root or by sudo, and asks nothing but sudo's own question:
# tests/apt_get.sh PACKAGE..
set -eu
root=
[ "$(id -u)" = 0 ] || root=sudo
for each in apt-get $root; do
    command -v "$each" > /dev/null 2>&1 || { echo "there is no $each here. Install these by hand: $*" >&2; exit 1; }
done
$root apt-get update -qq
$root env DEBIAN_FRONTEND=noninteractive apt-get install -qq --yes --no-install-recommends "$@"
