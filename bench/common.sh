# What the scripts of this folder share: the top of the repository, a folder of their own that is gone at the end, and
# programs of the repository, built where they are not.
set -euo pipefail
top=$(cd "$(dirname "${BASH_SOURCE[0]}")/.." && pwd)
work=$(mktemp -d)
chmod 755 "$work"
trap 'rm -rf "$work"' EXIT

# The path of a program of the repository. `rt run` builds it and runs it without words, so its status tells nothing here.
program() {
    (cd "$top/crates/$1" && rt run >/dev/null 2>&1 || true)
    local built="$top/crates/$1/out/$1"
    [ -x "$built" ] || { echo "$1 is not built" >&2; exit 1; }
    echo "$built"
}
