#!/usr/bin/env bash
# Reads real class files: those of version 52 or less in some Debian packages, fetched for this run and unpacked to a
# folder of their own, and what javac --release 8 makes of a source with most kinds of instructions. Prints how many were
# read and how many refused, by the number of the refusal, and the rate beside that of javap on the same files.
# Usage: bench/classes.sh [ROUNDS]
. "$(dirname "$0")/common.sh"
rounds=${1:-10}
reader=$(program class_bench)
cd "$work"
"$top/bench/real_classes.sh" .
echo "Debian packages:"
"$reader" classes "$rounds" | tee result
awk -v rounds="$rounds" '/^read/ { bytes = $4; files = $2 } /^refused/ { files += $4 } /^nanoseconds/ { pools = $3 / 1e9; classes = $5 / 1e9 }
    END { printf "%.0f MB of class files a second (%.0f files), pools alone %.0f MB\n", bytes * rounds / classes / 1e6, files * rounds / classes, bytes * rounds / pools / 1e6 }' result
if command -v javap >/dev/null; then
    TIMEFORMAT=%U
    spent=$({ time find classes -name '*.class' | xargs javap -c -p >/dev/null 2>&1; } 2>&1) || true
    awk -v spent="$spent" -v rounds="$rounds" '/^nanoseconds/ { printf "javap -c -p: %.2f s of processor time, %.0f times as long\n", spent, spent / ($5 / rounds / 1e9) }' result
fi
if [ -d made ]; then
    echo "javac --release 8 (one file holds a lambda, which is refused as 41):"
    "$reader" made 0
fi
