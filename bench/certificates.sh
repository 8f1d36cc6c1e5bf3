#!/bin/bash
# certificates.sh [PROGRAM]: certifies the sample books of books/ and bench/books by PROGRAM (or the one that the launcher
# builds), each with those that it includes, and then two books of which one includes the other twice. Asserts that each
# certified book leaves its certificate and no other book does, that its digest is the one that sha256sum gives for the
# book, and that an included book stands there once, with its own digest. The exit status is 0 where all hold, and else 1.
here=$(cd "$(dirname "$0")/.." && pwd)
if [ -n "$1" ]; then
    program=$(readlink -f -- "$1")
else
    "$here/acl2p" none >/dev/null 2>&1
    program=$here/out/acl2p
fi
[ -x "$program" ] || { echo "certificates.sh: there is no program $program" >&2; exit 1; }
folder=$(mktemp -d)
trap 'rm -rf "$folder"' EXIT
failed=0
certified=0

wrong() {
    echo "$1"
    failed=$((failed + 1))
}

digest_of() {
    sha256sum <"$folder/$1.lisp" | cut -d ' ' -f 1
}

# same_as NAME LINE ..: the certificate of a book is these lines, whatever its number of events
same_as() {
    local name=$1
    shift
    diff <(sed 's/^events [1-9][0-9]*$/events N/' "$folder/$name.cert" 2>&1) <(printf '%s\n' "$@") >"$folder/diff" ||
        wrong "$name: the certificate isn't as it should be: $(cat "$folder/diff")"
}

# alone BOOK: certifies a book behind those that it includes, and looks at its certificate
alone() {
    local name books book
    name=$(basename "$1" .lisp)
    books=$(cd "$(dirname "$1")" && "$here/tools/order.py" "$name")
    rm -f "$folder"/*
    for book in $books; do cp "$(dirname "$1")/$book.lisp" "$folder"; done
    (cd "$folder" && "$program" $books >out 2>err)
    local status=$?
    if [ "$status" = 0 ]; then
        local lines=()
        while read -r book; do
            lines+=("include $book $(digest_of "$book")")
        done < <(sed -n 's/^(include-book "\([^"]*\)")$/\1/p' "$1")
        same_as "$name" "acl2p certificate 1" "book $name" "sha256 $(digest_of "$name")" "${lines[@]}" "events N" end
        certified=$((certified + 1))
    elif [ "$status" != 1 ] || [ -e "$folder/$name.cert" ]; then
        wrong "$name: status $status, and $(cd "$folder" && ls ./*.cert 2>/dev/null)"
    fi
}

# an included book, twice
included() {
    rm -f "$folder"/*
    cp "$here/books/append.lisp" "$folder/append.lisp"
    printf '(in-package "ACL2")\n(include-book "append")\n(local (include-book "append"))\n(defun k (x) x)\n' >"$folder/user.lisp"
    (cd "$folder" && "$program" append user >out 2>err) || wrong "append and user: $(tail -1 "$folder/out")"
    same_as user "acl2p certificate 1" "book user" "sha256 $(digest_of user)" "include append $(digest_of append)" "events N" end
    grep -qx "events 3" "$folder/user.cert" || wrong "user: $(grep events "$folder/user.cert")"
}

for book in "$here"/books/*.lisp "$here"/bench/books/*.lisp; do
    alone "$book"
done
[ "$certified" -gt 0 ] || wrong "no book was certified"
included
echo "$certified books with their certificates, $failed assertions failed"
[ "$failed" = 0 ]
