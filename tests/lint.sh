#!/usr/bin/env bash
# Looks at the Python of the repository: lines of more than 120 characters; and, where they are there, what pyflakes finds and
# what mypy --strict finds in the package. Prints what is wrong. The last line says what looked.
set -euo pipefail
cd "$(dirname "$0")/.."
failed=0
looked='lines'
mapfile -t files < <(find bench docs page python release tests -name '*.py' -not -path '*/out/*' -not -path '*/planner/*' | sort)

# wide FILE..: the lines of more than 120 characters.
wide() {
    python3 - "$@" << 'END'
import sys
found = [f"{name}:{number}: {len(line) - 1} characters" for name in sys.argv[1:]
         for number, line in enumerate(open(name, encoding="utf-8"), 1) if len(line) > 121]
print("\n".join(found)) if found else None
sys.exit(len(found) > 0)
END
}

# named COMMAND..: the first of some commands that is there.
named() {
    local one
    for one in "$@"; do
        if command -v "$one" > /dev/null 2>&1; then
            echo "$one"
            return
        fi
    done
}

wide "${files[@]}" || failed=1
pyflakes=$(named pyflakes3 pyflakes)
if [ -n "$pyflakes" ]; then
    "$pyflakes" "${files[@]}" || failed=1
    looked="$looked, pyflakes"
fi
if [ -n "$(named mypy)" ]; then
    (cd python && mypy --strict --no-error-summary --cache-dir /dev/null -p nushbaret) || failed=1
    looked="$looked, mypy"
fi
echo "lint: ${#files[@]} files, by $looked"
exit "$failed"
