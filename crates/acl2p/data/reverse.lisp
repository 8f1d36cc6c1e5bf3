; The waterfall: what is tried on a goal that simplification leaves as it was.
(in-package "ACL2")

(defun app (x y)
  (if (consp x) (cons (car x) (app (cdr x) y)) y))

(defun rev (x)
  (if (consp x) (app (rev (cdr x)) (cons (car x) nil)) nil))

; The whole waterfall. The goal `Subgoal *1/2'`, which simplification leaves, goes through elimination, which takes X apart
; into X1 and X2, fertilization, which uses the hypothesis of the induction, generalization, which puts the variable R1 for
; `(REV X2)`, and irrelevance, which drops what R1 is a list for; it is then pushed, and proved by an induction of its own.
(defthm rev-rev
  (implies (true-listp x) (equal (rev (rev x)) x)))
