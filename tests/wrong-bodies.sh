#!/usr/bin/env bash
# Tries the wrong bodies that stand beside the gate: of each crate named, or of all, each edit in its folder wrong/ has
# to be refused by the crate's own contracts, as those in must-fail/ are in the gate. A body that is still proved fails
# it, and so does an edit that can't be read, or that is refused only since a proof file names what it took away.
#
#     tests/wrong-bodies.sh [CRATE..]
#
# The crates below a named one are proved first, where they aren't; what is proved is kept in this checkout.
set -euo pipefail
top=$(cd "$(dirname "$0")/.." && pwd)
room=$(mktemp -d)
trap 'rm -rf "$room"' EXIT
names=("$@")
if [ ${#names[@]} -eq 0 ]; then
    for folder in "$top"/crates/*/wrong; do
        names+=("$(basename "$(dirname "$folder")")")
    done
fi
# A copy of the crates, in which each named one has its bodies of wrong/ in must-fail/. What is proved goes to this
# checkout.
cp "$top/crates.txt" "$top/HANDLES" "$room/"
mkdir "$room/crates"
(cd "$top/crates" && tar cf - --exclude='./*/out' --exclude='./*/must-fail' .) | tar xf - -C "$room/crates"
for crate in "$top"/crates/*; do
    mkdir -p "$crate/out"
    ln -s "$crate/out" "$room/crates/$(basename "$crate")/out"
done
count=0
for name in "${names[@]}"; do
    folder=$room/crates/$name
    [ -d "$folder/wrong" ] || { echo "$name has no wrong bodies beside the gate" >&2; exit 2; }
    mv "$folder/wrong" "$folder/must-fail"
    edits=("$folder"/must-fail/*.edit)
    count=$((count + ${#edits[@]}))
done
cd "$room"
status=0
rt must-fail "${names[@]}" 2>&1 | tee "$room/told" || status=1
if grep -E 'BAD EDIT|NOT REFUSED|only because a proof file names' "$room/told" >&2 || [ $status -ne 0 ]; then
    exit 1
fi
echo "$count wrong bodies beside the gate, each refused"
