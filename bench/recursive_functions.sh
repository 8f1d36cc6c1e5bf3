#!/bin/bash
# recursive_functions.sh [COUNT]: the time that a book of so many functions takes which call themselves, each with its
# measure and its obligation (default 2,000, 5,000 and 10,000). The time should grow with the number of functions, and
# no faster.
here=$(cd "$(dirname "$0")/.." && pwd)
"$here/acl2p" none >/dev/null 2>&1
program=$here/out/acl2p
folder=$(mktemp -d)
for count in ${1:-2000 5000 10000}; do
    {
        echo '(in-package "ACL2")'
        seq "$count" | sed 's/.*/(defun f-& (x y) (if (consp x) (cons (car x) (f-& (cdr x) y)) y))/'
    } >"$folder/many.lisp"
    start=$(date +%s%N)
    (cd "$folder" && "$program" many >out)
    status=$?
    end=$(date +%s%N)
    echo "$count functions: $(((end - start) / 1000000)) ms, status $status, $(wc -c <"$folder/many.lisp") bytes read, $(wc -c <"$folder/out") bytes printed"
done
rm -rf "$folder"
