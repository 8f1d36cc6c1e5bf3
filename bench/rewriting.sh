#!/bin/bash
# rewriting.sh: books that rewrite, by acl2p and, where it is installed, by ACL2 on the same machine in the same run (Debian's
# package acl2; it wants the folder /usr/share/acl2-8.5dfsg/books to exist). For each book the processor time of each, user
# and system, the least of three, and their ratio: 1,000 plain functions and a theorem about each that opens it; 395 nested
# calls that are opened; a rule that is used 5,000 times; the exclusive-or of ten variables, grouped to the left and to the
# right.
here=$(cd "$(dirname "$0")/.." && pwd)
"$here/acl2p" none >/dev/null 2>&1
program=$here/out/acl2p
folder=$(mktemp -d)
trap 'rm -rf "$folder"' EXIT
head='(in-package "ACL2")'

plain() { # functions and theorems
    echo "$head"
    for i in $(seq 1000); do
        echo "(defun f-$i (x y) (if (consp x) (cons (car x) (cons y $i)) (cons y x)))"
        echo "(defthm car-f-$i (implies (consp x) (equal (car (f-$i x y)) (car x))))"
    done
}
nested() { # calls within calls, each of which is opened; a book's lists stand at most 400 within each other
    echo "$head"
    echo "(defun g (x) (car (cons x x)))"
    local term=x i
    for i in $(seq 395); do term="(g $term)"; done
    echo "(defthm nested (equal $term x) :rule-classes nil)"
}
often() { # one rule, on each of 5,000 calls
    echo "$head"
    echo "(defun h (x) (cons x 1))"
    echo "(defthm car-h (equal (car (h x)) x))"
    echo "(in-theory (disable h))"
    local i j term
    for i in $(seq 50); do
        term=x
        for j in $(seq 100); do term="(car (h $term))"; done
        echo "(defthm often-$i (equal $term x) :rule-classes nil)"
    done
}
xor_left() {
    local term=x1 i
    for i in $(seq 2 10); do term="(xr $term x$i)"; done
    echo "$term"
}
xor_right() {
    local term=x10 i
    for i in $(seq 9 -1 1); do term="(xr x$i $term)"; done
    echo "$term"
}
exclusive() {
    echo "$head"
    echo "(defun xr (x y) (if x (if y nil t) (if y t nil)))"
    echo "(defthm groups (equal $(xor_left) (if $(xor_right) t nil)) :rule-classes nil)"
}

least() { # the least processor time of three runs, in milliseconds
    local best=999999999 now i
    for i in 1 2 3; do
        now=$( (TIMEFORMAT='%U %S'; time (cd "$folder" && "$@" >out 2>&1)) 2>&1 | awk '{ print int(($1 + $2) * 1000) }')
        [ "$now" -lt "$best" ] && best=$now
    done
    echo "$best"
}
by_acl2() { acl2 <"$1.acl2"; }
for book in plain nested often exclusive; do
    $book >"$folder/$book.lisp"
    ours=$(least "$program" --goals 100000 "$book")
    said=$(tail -1 "$folder/out")
    line="$book: acl2p $ours ms ($said)"
    if command -v acl2 >/dev/null; then
        echo "(ld \"$book.lisp\")" >"$folder/$book.acl2"
        echo ":q" >"$folder/none.acl2"
        start=$(least by_acl2 none)
        theirs=$(($(least by_acl2 "$book") - start))
        line="$line, acl2 $theirs ms beside $start ms to start, ratio $(awk "BEGIN { print $ours / ($theirs > 0 ? $theirs : 1) }")"
    fi
    echo "$line"
done
