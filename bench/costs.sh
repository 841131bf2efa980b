#!/usr/bin/env bash
# Runs the gate from nothing, or that of the named crates and those below them, and prints as a table what each crate cost: the
# processor minutes of its proofs, of its tests and of its edits, the dearest first. The gate's own output goes to the file LOG.
. "$(dirname "${BASH_SOURCE[0]}")/common.sh"

log=${LOG:-$(mktemp /tmp/costs.XXXXXX.log)}
echo "the gate's output: $log" >&2
cd "$top"
PYTHONDONTWRITEBYTECODE=1 python3 "$top/bench/costs.py" "$log" "$@"
