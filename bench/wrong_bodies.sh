#!/bin/bash
# wrong_bodies.sh [NAME ..]: tries the wrong bodies in crates/NAME/wrong-bodies, those that the gate doesn't try, of the
# crates that are named, else of all that have some. It works in a clone of what is committed, by the toolchain's own
# `rt must-fail`, which the clone takes for the wrong bodies of its gate; so the contracts are asked as the gate asks.
# Libraries that `rt lib` left in this tree are taken over where they are of the same sources (a gate's aren't); the others
# are proved first, which for the highest crates takes an hour. It prints what isn't refused and how many were; status 1
# where one wasn't.
here=$(cd "$(dirname "$0")/.." && pwd)
folder=$(mktemp -d)
trap 'rm -rf "$folder"' EXIT
git clone -q "$here" "$folder/clone" && cd "$folder/clone" || exit 1
for built in "$here"/crates/*/out; do
    [ -d "$built" ] && cp -a "$built" "crates/$(basename "$(dirname "$built")")/out"
done
names=()
for from in crates/*/wrong-bodies; do
    crate=$(basename "$(dirname "$from")")
    if [ $# -gt 0 ] && [[ " $* " != *" $crate "* ]]; then
        continue
    fi
    rm -rf "crates/$crate/must-fail"
    mv "$from" "crates/$crate/must-fail"
    names+=("$crate")
done
[ ${#names[@]} -gt 0 ] || { echo "wrong_bodies.sh: no crate of these has wrong bodies" >&2; exit 2; }
status=0
for crate in "${names[@]}"; do
    rt must-fail "$crate" >"$folder/said" 2>&1 || status=1
    grep '^must-fail' "$folder/said" | grep -v 'refused, as it must be' || true
    grep -q '^must-fail' "$folder/said" || { tail -5 "$folder/said"; status=1; }
    echo "$crate: $(grep -c 'refused, as it must be' "$folder/said") of $(ls crates/"$crate"/must-fail/*.edit | wc -l) refused"
done
exit $status
