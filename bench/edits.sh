#!/usr/bin/env bash
# Has the prover refuse the edits of the named crates, or of all: those of must-fail/, which the gate tries too, and those of
# wrong-bodies/, which it does not. Prints a line for each, with the processor seconds that its refusal took, and counts them.
# It works on a copy of the files as they stand, with those that are not committed, so that nothing of the checkout is changed.
# What was refused on this machine before, over the same files, is said to be kept; --anew tries all.
. "$(dirname "${BASH_SOURCE[0]}")/common.sh"

copy=$work/repository
mkdir "$copy"
cd "$top"
git ls-files -z --cached --others --exclude-standard | while IFS= read -r -d '' file; do
    if [ -e "$file" ]; then printf '%s\0' "$file"; fi
done | tar -c --null -T - | tar -x -C "$copy"
for folder in "$copy"/crates/*/wrong-bodies; do
    [ -d "$folder" ] || continue
    beside=$(dirname "$folder")/must-fail
    mkdir -p "$beside"
    for edit in "$folder"/*.edit; do
        [ ! -e "$beside/$(basename "$edit")" ] || { echo "${edit#"$copy/"}: an edit of must-fail has that name too" >&2; exit 1; }
        mv "$edit" "$beside/"
    done
done
cd "$copy"
PYTHONDONTWRITEBYTECODE=1 python3 "$top/bench/edits.py" "$@"
