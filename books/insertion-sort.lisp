; Insertion sort: what it gives is in order, and what is in order stays as it is. docs/MANUAL.md says why these lemmas;
; failures/silent.lisp is the book without them.
(in-package "ACL2")

(defun insert (e x)
  (if (consp x)
      (if (<= e (car x)) (cons e x) (cons (car x) (insert e (cdr x))))
    (list e)))

(defun isort (x)
  (if (consp x) (insert (car x) (isort (cdr x))) nil))

(defun orderedp (x)
  (if (consp x)
      (if (consp (cdr x)) (and (<= (car x) (car (cdr x))) (orderedp (cdr x))) t)
    t))

; The call within a call that the induction on x leaves: (orderedp (insert (car x) (isort (cdr x)))). The induction that
; serves is that of insert, which is the one that changes e's place.
(defthm orderedp-insert
  (implies (orderedp x) (orderedp (insert e x)))
  :hints (("Goal" :induct (insert e x))))

(defthm orderedp-isort
  (orderedp (isort x)))

; What is inserted before a list that it begins in order stands first. The list is y, of which a fact says that it is x:
; the hypothesis of the induction below, (equal (isort x2) x2), isn't used to rewrite (isort x2) elsewhere, but it gives
; the hypothesis (equal y x) its x.
(defthm insert-below
  (implies (and (equal y x) (orderedp (cons a x)) (true-listp x))
           (equal (insert a y) (cons a x))))

; The hypothesis of the induction below asks that the rest is in order.
(defthm orderedp-cdr
  (implies (orderedp x) (orderedp (cdr x))))

; Closed, since both open on one cdr more each time that a variable is taken apart.
(in-theory (disable insert orderedp))

(defthm isort-of-ordered
  (implies (and (true-listp x) (orderedp x)) (equal (isort x) x)))
