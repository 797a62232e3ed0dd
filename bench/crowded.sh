#!/usr/bin/env bash
# Prints a sparse problem: each of N persons lists eight objects, drawn among the first FEW, which are too few for all.
# bench/crowded.sh N FEW
set -euo pipefail
awk -v n="$1" -v few="$2" 'BEGIN { seed = 7; print n
    for (i = 1; i <= n; i++) for (k = 0; k < 8; k++) {
        seed = (seed * 16807) % 2147483647
        j = 1 + seed % few
        seed = (seed * 16807) % 2147483647
        print i, j, 1 + seed % 1000
    } }'
