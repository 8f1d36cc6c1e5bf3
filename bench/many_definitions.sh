#!/bin/bash
# many_definitions.sh [COUNT]: the time that a book of so many functions takes which don't call themselves
# (default 10,000, 50,000 and 100,000, which is just below the size that a book may have). The time should grow with
# the number of functions, and no faster.
here=$(cd "$(dirname "$0")/.." && pwd)
"$here/acl2p" none >/dev/null 2>&1
program=$here/out/acl2p
folder=$(mktemp -d)
for count in ${1:-10000 50000 100000}; do
    {
        echo '(in-package "ACL2")'
        seq "$count" | sed 's/.*/(defun f-& (x y) (cons (car x) y))/'
    } >"$folder/many.lisp"
    start=$(date +%s%N)
    (cd "$folder" && "$program" many >out)
    status=$?
    end=$(date +%s%N)
    echo "$count functions: $(((end - start) / 1000000)) ms, status $status, $(wc -c <"$folder/many.lisp") bytes read, $(wc -c <"$folder/out") bytes printed"
done
rm -rf "$folder"
