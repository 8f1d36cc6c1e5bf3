#!/bin/bash
# nested_events.sh [COUNT]: the processor time that a book of so many `encapsulate`s takes, each with a local theorem, a
# function and a theorem (default 1,000, 2,000 and 4,000), and that of a book which only includes it, behind it on the
# same line. Both should grow with the number of events, and no faster.
here=$(cd "$(dirname "$0")/.." && pwd)
"$here/acl2p" none >/dev/null 2>&1
program=$here/out/acl2p
folder=$(mktemp -d)
trap 'rm -rf "$folder"' EXIT

# taken BOOK ..: milliseconds of processor time, the least of three runs
taken() {
    for _ in 1 2 3; do
        (TIMEFORMAT='%U %S'; time (cd "$folder" && "$program" "$@" >out)) 2>&1 | awk '{ print int(($1 + $2) * 1000) }'
    done | sort -n | head -1
}

for count in ${1:-1000 2000 4000}; do
    {
        echo '(in-package "ACL2")'
        for i in $(seq "$count"); do
            echo "(encapsulate () (local (defthm l-$i (equal (car (cons x y)) x))) (defun f-$i (x) (cons x $i)) (defthm r-$i (equal (f-$i x) (cons x $i))))"
        done
    } >"$folder/many.lisp"
    printf '(in-package "ACL2")\n(include-book "many")\n' >"$folder/user.lisp"
    alone=$(taken many)
    both=$(taken many user)
    echo "$count encapsulates: $alone ms; with a book that includes them $both ms; $(tail -1 "$folder/out")"
done
