#!/bin/bash
# many_rules.sh [COUNT]: the processor time that a book of so many functions and so many theorems about them takes, each of
# which becomes a rewrite rule (default 5,000, 10,000 and 20,000). It should grow with their number, and no faster.
here=$(cd "$(dirname "$0")/.." && pwd)
"$here/acl2p" none >/dev/null 2>&1
program=$here/out/acl2p
folder=$(mktemp -d)
trap 'rm -rf "$folder"' EXIT
for count in ${1:-5000 10000 20000}; do
    {
        echo '(in-package "ACL2")'
        for i in $(seq "$count"); do
            echo "(defun f-$i (x) (cons x $i))"
            echo "(defthm r-$i (equal (f-$i x) (cons x $i)))"
        done
    } >"$folder/many.lisp"
    taken=$( (TIMEFORMAT='%U %S'; time (cd "$folder" && "$program" many >out)) 2>&1 | awk '{ print int(($1 + $2) * 1000) }')
    echo "$count theorems: $taken ms, $(wc -c <"$folder/many.lisp") bytes read, $(tail -1 "$folder/out")"
done
