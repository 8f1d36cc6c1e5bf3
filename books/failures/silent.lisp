; A proof of which nothing is seen: insertion sort, without the lemma that it needs. With the limits as they are it goes on
; for more than five minutes behind the line "DEFUN ORDEREDP admitted". So ask for little: acl2p --goals 40 --steps 1000 silent.
; ../insertion-sort.lisp is its repair.
(in-package "ACL2")

(defun insert (e x)
  (if (consp x)
      (if (<= e (car x)) (cons e x) (cons (car x) (insert e (cdr x))))
    (list e)))

(defun isort (x)
  (if (consp x) (insert (car x) (isort (cdr x))) nil))

(defun orderedp (x)
  (if (consp x)
      (if (consp (cdr x)) (and (<= (car x) (car (cdr x))) (orderedp (cdr x))) t)
    t))

(defthm orderedp-isort
  (orderedp (isort x)))
