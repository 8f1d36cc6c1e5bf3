#!/bin/bash
# order.sh [PROGRAM]: tests of tools/order.py: the order of the sample books of books/levels, include-book forms within
# comments, strings and other events, cycles and missing files; and, where `ninja` is there, that its build.ninja certifies
# these books by PROGRAM (or the one that the launcher builds), and again only what changed. Prints a line for each test;
# the exit status is 0 where all hold, and else 1.
here=$(cd "$(dirname "$0")/.." && pwd)
order=$here/tools/order.py
program=${1:+$(readlink -f -- "$1")}
scratch=$(mktemp -d)
trap 'rm -rf "$scratch"' EXIT
failed=0

# is NAME WANTED GIVEN
is() {
    if [ "$2" = "$3" ]; then
        echo "ok: $1"
    else
        echo "FAILED: $1: '$3' in place of '$2'"
        failed=$((failed + 1))
    fi
}

mkdir "$scratch/a folder" && cd "$scratch/a folder" || exit 1
cp "$here"/books/levels/*.lisp .
is "three levels" "app rev members palindrome total" "$("$order" palindrome total.lisp)"
is "the order of the words, where nothing else decides" "app total rev members palindrome" "$("$order" total palindrome)"

cat >odd.lisp <<'END'
; (include-book "comment")
#| (include-book "block") #| (include-book "nested") |# (include-book "block") |#
(in-package "ACL2")
(defconst *c* "(include-book \"string\")")
(defconst *d* '(#\" #\( #\; |;(include-book "bars")|)) (encapsulate () (local (Include-Book
  "app"))) (progn (acl2::include-book "rev"))
END
is "comments, strings, characters and bars hold no forms, other events do" "app rev odd" "$("$order" odd)"

echo '(include-book "two")' >one.lisp
echo '(include-book "three")' >two.lisp
echo '(include-book "one")' >three.lisp
is "a cycle is named" "order.py: a cycle: one includes two includes three includes one; 1" "$("$order" one 2>&1); $?"
echo '(include-book "nowhere")' >user.lisp
is "a missing file is named" "order.py: nowhere.lisp can't be read: No such file or directory, which user.lisp includes; 1" "$("$order" user 2>&1); $?"
is "what is no name is refused" "order.py: ../app is no book's name; 2" "$("$order" ../app 2>&1); $?"
rm odd.lisp one.lisp two.lisp three.lisp user.lisp

if command -v ninja >/dev/null; then
    export ACL2P=$program
    "$order" --ninja palindrome total >build.ninja
    is "ninja certifies the two top books" "0" "$(ninja >said 2>&1; echo $?)"
    is "with what they need" "palindrome/app palindrome/members palindrome/palindrome palindrome/rev total/app total/total" \
        "$(cd certified && ls ./*/*.cert | sed 's|^./||; s|.cert$||' | tr '\n' ' ' | sed 's/ $//')"
    is "then there is nothing to do" "ninja: no work to do." "$(ninja)"
    touch total.lisp
    is "what changed is done again" "[1/1] acl2p app total" "$(ninja)"
    echo '(defthm wrong (equal x y))' >>rev.lisp
    ninja >said 2>&1
    is "a book that isn't certified fails, and its text is shown" "Book rev not certified" "$(grep "^Book rev n" said)"
else
    echo "no ninja is there: its part isn't tried"
fi
echo "$failed assertions failed"
[ "$failed" = 0 ]
