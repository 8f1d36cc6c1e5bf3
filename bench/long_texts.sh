#!/bin/bash
# long_texts.sh [MEBIBYTES..]: the time in which a book of so many mebibytes is read (default 1, 2, 4 and 8).
# A book is read whole before its first event, and that event is refused, so nearly all of the time is reading.
# The time should grow with the size, and no faster.
here=$(cd "$(dirname "$0")/.." && pwd)
"$here/acl2p" none >/dev/null 2>&1
program=$here/out/acl2p
folder=$(mktemp -d)
line='(defthm t-1 (equal (if x (equal y (quote ("a b" #\Space . 12))) t) (car (cons x y))) :rule-classes nil) ; #| a'
for mebibytes in ${*:-1 2 4 8}; do
    {
        echo '(in-package "ACL2")'
        echo '(stop)'
        yes "$line" | head -n $((mebibytes * 1048576 / (${#line} + 1)))
    } >"$folder/long.lisp"
    start=$(date +%s%N)
    (cd "$folder" && "$program" long >out)
    status=$?
    end=$(date +%s%N)
    echo "$mebibytes MiB: $(((end - start) / 1000000)) ms, status $status, $(wc -c <"$folder/long.lisp") bytes read, $(tail -n 1 "$folder/out")"
done
rm -rf "$folder"
