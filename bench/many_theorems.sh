#!/bin/bash
# many_theorems.sh [COUNT]: the time that a book of so many theorems takes (default 1,000, 5,000 and 10,000).
# The time should grow with the number of theorems, and no faster.
here=$(cd "$(dirname "$0")/.." && pwd)
"$here/acl2p" none >/dev/null 2>&1
program=$here/out/acl2p
folder=$(mktemp -d)
for count in ${1:-1000 5000 10000}; do
    {
        echo '(in-package "ACL2")'
        for i in $(seq "$count"); do
            echo "(defthm t-$i (equal (if x (equal y z) t) (if x (equal y z) t)) :rule-classes nil)"
        done
    } >"$folder/many.lisp"
    start=$(date +%s%N)
    (cd "$folder" && "$program" many >out)
    status=$?
    end=$(date +%s%N)
    echo "$count theorems: $(((end - start) / 1000000)) ms, status $status, $(wc -c <"$folder/many.lisp") bytes read, $(wc -c <"$folder/out") bytes printed"
done
rm -rf "$folder"
