#!/usr/bin/env bash
# Whether README is enough in a bare Debian 12: ./try and tests/quick.sh, without --install and with it, and each `$` line after the
# packages that README names, over a clone of what is committed here, in a root of its own that debootstrap makes and this script
# removes. Needs to be root, debootstrap, git, unshare, 3 GB of disk and a mirror of Debian, which may be named: tests/bare.sh [MIRROR]
set -euo pipefail
cd "$(dirname "$0")/.."
root=$(mktemp -d)
trap 'rm -rf --one-file-system "$root"' EXIT
failed=0

# there COMMAND: runs in the root, whose mounts end with it.
there() {
    unshare -m bash -c '
        for each in proc sysfs devpts tmpfs; do
            case $each in proc) at=proc ;; sysfs) at=sys ;; devpts) at=dev/pts ;; tmpfs) at=dev/shm ;; esac
            mkdir -p "$0/$at" && mount -t "$each" "$each" "$0/$at"
        done
        exec env -i HOME=/root TERM=dumb PATH=/usr/sbin:/usr/bin:/sbin:/bin chroot "$0" bash -c "cd /nushbaret && $1"' "$root" "$1"
}

# ends STATUS LINE COMMAND: the command ends so, and its last line on standard output matches this pattern.
ends() {
    local wanted=$1 pattern=$2 status=0 last
    there "$3" > "$root/tmp/printed" || status=$?
    cat "$root/tmp/printed"
    last=$(tail -n 1 "$root/tmp/printed")
    if [ "$status" != "$wanted" ] || ! [[ $last =~ ^$pattern$ ]]; then
        echo "bare: $3: status $status, wanted $wanted; last line '$last', wanted '$pattern'"
        failed=$((failed + 1))
    fi
}

debootstrap --variant=minbase bookworm "$root" "${1:-http://deb.debian.org/debian}" > /dev/null
git clone -q --no-hardlinks . "$root/nushbaret"
ends 1 'assign 2 1 3' ./try
ends 1 '[0-9]+ passed, 0 failed, [1-9][0-9]* skipped' tests/quick.sh
ends 0 '[0-9]+ passed, 0 failed, [1-9][0-9]* skipped' 'tests/quick.sh --without-missing'
ends 0 'the same as a page: \./out/week\.html' './try --install'
ends 0 'Eve: office, 0\.75' './try examples/named_roster.csv'
ends 0 '' 'apt-get install -y python3-venv gcc libc6-dev > /dev/null && tests/pages.py README.md release/auction_cli'
ends 0 '[0-9]+ passed, 0 failed' 'tests/quick.sh --install'
echo "bare: $([ "$failed" = 0 ] && echo 'as wanted' || echo "$failed not as wanted")"
[ "$failed" = 0 ]
