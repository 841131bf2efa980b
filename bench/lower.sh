#!/usr/bin/env bash
# Lowers real class files: those of bench/real_classes.sh. Prints how many classes are lowered, each as a folder of its own,
# and how many are refused, by the number of the refusal; then how long all that are lowered take as one folder, on one
# processor and on all. Fails where a class is refused by kinds (62 to 64): each of them was verified when it was compiled.
# Usage: bench/lower.sh [ROUNDS]
. "$(dirname "$0")/common.sh"
rounds=${1:-10}
lowerer=$(program lower_cases)
cd "$work"
"$top/bench/real_classes.sh" .

# The counts of a folder, and a complaint where kinds refuse a class.
count() {
    "$lowerer" "$@" | tee counts
    if grep -q '^refused 6[234] ' counts; then
        echo "kinds refuse a class that was verified"
        exit 1
    fi
}

# Classes and instructions a second, for a run with these processors.
rate() {
    awk -v rounds="$rounds" -v processors="$1" '/^left out/ { classes = $5; instructions = $9 } /^rounds/ { seconds = $6 / 1e9 }
        END { printf "%s: %.0f classes and %.1f million instructions a second\n", processors, classes * rounds / seconds, instructions * rounds / seconds / 1e6 }' counts
}

echo "Debian packages:"
count classes "$rounds"
rate "all processors"
taskset -c 0 "$lowerer" classes "$rounds" >counts
rate "one processor"
if [ -d made ]; then
    echo "javac --release 8:"
    count made
fi
