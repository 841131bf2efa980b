#!/usr/bin/env bash
# How long operations on decision diagrams take, with one worker, beside BuDDy on the same work in the same run: the same
# variable order, no reordering, and room for all nodes, so that none is collected. The identity relation of 64 slots
# composed with itself, relations of disjunctions over 30 slots with some variables forgotten, and pairs of these composed.
# Both programs run with caches of 1,024, 262,144 and 1,048,576 entries. What two composed relations share is forgotten one
# variable after the other, in one call, and in one pass with the conjunction. The nodes are those that BuDDy made. Where no
# BuDDy is installed, Debian's package is fetched for this run and unpacked to a folder of its own. Each figure is the best
# of some runs; the last says how many times as fast as BuDDy ours is.
# Usage: bench/bdd.sh [RUNS]
. "$(dirname "$0")/common.sh"
runs=${1:-5}
ours=$(program bdd_bench)
cd "$work"
if ! cc -O2 -o buddy "$top/bench/bdd.c" -lbdd -lm 2>/dev/null; then
    apt-get download libbdd-dev libbdd0c2 >/dev/null 2>&1
    for package in *.deb; do dpkg -x "$package" unpacked; done
    cc -O2 -Iunpacked/usr/include -o buddy "$top/bench/bdd.c" "$(find unpacked -name libbdd.a)" -lm
fi

# What a program writes in the run that took it the fewest nanoseconds.
best() {
    for _ in $(seq "$runs"); do "$@"; done | sed -E 's/.* in ([0-9]+) ns/\1 &/' | sort -n | head -1 | cut -d' ' -f2-
}

# The number after a word.
number() {
    sed -E "s/.*$1 ([0-9]+).*/\1/"
}

echo "load average: $(cut -d' ' -f1-3 /proc/loadavg)"
printf '%-14s %-10s %9s %10s %10s %12s %12s %8s\n' work forgetting cache steps nodes 'ours, ms' 'BuDDy, ms' speed
for what in 'identity 1' 'identity 100' 'taint 1' 'taint 20' 'calls 1' 'calls 2'; do
    ways=('' sets products)
    [ "${what% *}" = taint ] && ways=('')
    for way in "${ways[@]}"; do
        for cache in 1024 262144 1048576; do
            # The words are several.
            # shellcheck disable=SC2086
            {
                best "$ours" $what $cache $way >ours
                best ./buddy $what $cache $way >other
            }
            if [ "$(number answer <ours)" != "$(number answer <other)" ]; then
                # A relation that is made whole may be too large for the largest table.
                printf '%-14s %-10s %9d   %s | %s\n' "$what" "${way:-singly}" $cache "$(cat ours)" "$(cat other)"
                continue
            fi
            awk -v what="$what" -v way="${way:-singly}" -v cache=$cache -v n="$(number operations <other)" \
                -v nodes="$(number nodes <other)" -v t="$(number in <ours)" -v base="$(number in <other)" \
                'BEGIN { printf "%-14s %-10s %9d %10d %10d %12.2f %12.2f    x%.2f\n", what, way, cache, n, nodes, t / 1e6, base / 1e6, base / t }'
        done
    done
done
