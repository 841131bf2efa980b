#!/usr/bin/env bash
# Nodes that are asked for again per second: the shared table with 1, 2 and 4 threads, beside a
# hash map of Rust's std in one thread, on one sequence. Each figure is the best of some runs.
# Then how full tables get with nodes of relations over three copies of 60 slots, and how many places a make looks at.
# Usage: bench/nodes.sh [RUNS [MAKES]]
. "$(dirname "$0")/common.sh"
runs=${1:-5}
makes=${2:-8000000}
table=$(program node_bench)
plain="$work/hash_map_nodes"
rustc --edition 2021 -O -o "$plain" "$top/bench/hash_map_nodes.rs"

# The fewest nanoseconds that asking again took.
best() {
    for _ in $(seq "$runs"); do
        "$@" | sed -E 's/.*again [0-9]+ in ([0-9]+) ns.*/\1/'
    done | sort -n | head -1
}

printf '%9s %5s %14s %14s %14s %14s\n' slots load 'hash map' 'one thread' 'two threads' 'four threads'
for slots in 65536 4194304; do
    for load in 10 50 90; do
        base=$(best "$plain" $((slots * load / 100)) "$makes")
        line=$(printf '%9s %4s%%' "$slots" "$load")
        line+=$(awk -v n="$makes" -v t="$base" 'BEGIN { printf " %8.1f M/s    ", n * 1000 / t }')
        for threads in 1 2 4; do
            time=$(best "$table" "$slots" "$load" "$threads" "$makes")
            line+=$(awk -v n="$makes" -v t="$time" -v b="$base" 'BEGIN { printf "%6.1f (x%.1f) ", n * 1000 / t, b / t }')
        done
        echo "$line"
    done
done

printf '\n%9s %12s %7s %12s %16s\n' slots nodes full makes 'probes a make'
for slots in 65536 1048576 16777216; do
    "$table" "$slots" 90 | awk -v slots="$slots" -F '[ ,]+' \
        '{ printf "%9d %12d %6.1f%% %12d %16.1f%s\n", slots, $2, 100 * $2 / slots, $4, $6 / $4, $2 < slots * 0.9 - 1 ? "   no room" : "" }'
done
