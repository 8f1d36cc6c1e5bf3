#!/usr/bin/env python3
"""generated.py FOLDER: writes into that folder the books that are too long or too regular to be kept, NAME.lisp each, and
where the program wants options for one, NAME.options with its words. The scripts that measure books take them from here.

    demo-200 demo-1000       so many functions that copy a list, each with its theorem
    wide-16 wide-64          an exclusive or of eight (six) variables in two groupings, in 16 (64) cases by a hint
    exclusive-10             one of ten variables, which runs out of steps
    equal-400 equal-800      a conjunction of so many equalities of a variable with itself
    append-300 length-390    an equation on a list of 300 variables; the length of 390 conses
    two-sums by-places       two ways to add up a range; members by their places, with --goals 60
"""
import sys

if len(sys.argv) != 2:
    sys.exit(__doc__)


def book(name, *forms):
    with open(f"{sys.argv[1]}/{name}.lisp", "w") as out:
        out.write("\n".join(['(in-package "ACL2")', *forms]) + "\n")


def right(names):
    return names[0] if len(names) == 1 else f"(differ {names[0]} {right(names[1:])})"


def left(names):
    return names[0] if len(names) == 1 else f"(differ {left(names[:-1])} {names[-1]})"


DIFFER = "(defun differ (p q) (if p (if q nil t) (if q t nil)))"


def wide(name, letters, count):
    cases = " ".join(f"(equal k {i})" for i in range(count))
    book(name, DIFFER, f"(defthm wide (implies (or {cases}) (iff {right(letters)} {left(letters)}))"
                       f' :hints (("Goal" :cases ({cases}))) :rule-classes nil)')


for count in (200, 1000):
    book(f"demo-{count}", *[line for i in range(1, count + 1) for line in (
        f"(defun d-{i} (x) (if (consp x) (cons (car x) (d-{i} (cdr x))) nil))",
        f"(defthm d-{i}-same (implies (true-listp x) (equal (d-{i} x) x)))")])
wide("wide-16", "abcdefgh", 16)
wide("wide-64", "abcdef", 64)
ten = "abcdefghij"
book("exclusive-10", DIFFER, f"(defthm ten (iff {right(ten)} {left(ten)}) :rule-classes nil)")
for count in (400, 800):
    book(f"equal-{count}", "(defthm each (and " + " ".join(f"(equal x{i} x{i})" for i in range(count)) + ") :rule-classes nil)")
book("append-300", "(defthm joined (equal (append " + " ".join(f"x{i}" for i in range(300)) + ") y) :rule-classes nil)")
conses = "nil"
for _ in range(390):
    conses = f"(cons a {conses})"
book("length-390", f"(defthm long (equal (len {conses}) 390) :rule-classes nil)")
book("two-sums",
     "(defun sum-to (n) (declare (xargs :measure (if (or (not (integerp n)) (<= n 0)) 0 n)))"
     " (if (or (not (integerp n)) (<= n 0)) 0 (+ n (sum-to (- n 1)))))",
     "(defun sum-below (k top) (declare (xargs :measure (if (or (not (integerp k)) (< k 0)) 0 (+ 1 k))))"
     " (if (or (not (integerp k)) (< k 0)) 0 (+ (- top k) (sum-below (- k 1) top))))",
     "(defthm sum-below-by-sum-to (implies (and (natp k) (natp top) (<= k top))"
     " (equal (sum-below k top) (- (sum-to top) (sum-to (1- (- top k)))))))")
book("by-places",
     "(defun place (n l) (if (endp l) nil (if (zp n) (car l) (place (- n 1) (cdr l)))))",
     "(defun places (ns l) (if (endp ns) nil (cons (place (car ns) l) (places (cdr ns) l))))",
     "(defun count-down (n) (if (zp n) nil (cons (- n 1) (count-down (- n 1)))))",
     "(defun joined (x y) (if (endp x) y (cons (car x) (joined (cdr x) y))))",
     "(defun turned (x) (if (endp x) nil (joined (turned (cdr x)) (list (car x)))))",
     "(defun last-of (n l) (if (zp n) nil (cons (place (- n 1) l) (last-of (- n 1) l))))",
     "(defthm last-of-cons (equal (cons (place y (cons x1 x2)) (last-of y (cons x1 x2)))"
     " (joined (last-of y x2) (list x1))))",
     "(defthm last-of-is-turned (equal (last-of (len x) x) (turned x)))",
     "(defthm places-count-down (equal (places (count-down y) x) (last-of y x)))")
with open(f"{sys.argv[1]}/by-places.options", "w") as out:
    out.write("--goals 60\n")
