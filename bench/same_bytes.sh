#!/bin/bash
# same_bytes.sh [RUNS]: each sample book in books/ with 1, 2, 3, 8 and 64 workers, so many times each (default 20):
# the bytes and the status must be the same. Prints a line for each book.
here=$(cd "$(dirname "$0")/.." && pwd)
acl2p=${ACL2P:-$here/out/acl2p}
[ -x "$acl2p" ] || { echo "same_bytes: no program at $acl2p; build it by ../acl2p" >&2; exit 1; }
folder=$(mktemp -d)
trap 'rm -rf "$folder"' EXIT
cp "$here"/books/*.lisp "$folder"
cd "$folder" || exit 1
status=0
for book in *.lisp; do
    name=${book%.lisp}
    wanted=$("$acl2p" "$name"; echo "status $?")
    differing=0
    for workers in 1 2 3 8 64; do
        for _ in $(seq "${1:-20}"); do
            given=$("$acl2p" --workers $workers "$name"; echo "status $?")
            [ "$given" = "$wanted" ] || differing=$((differing + 1))
        done
    done
    echo "$name: $differing of $((5 * ${1:-20})) runs differ"
    [ $differing = 0 ] || status=1
done
exit $status
