; A sum of two constants that isn't folded: (+ -1 (+ 1 x)). one-and-minus-one-mended.lisp is its repair.
(in-package "ACL2")

(defun app (x y)
  (if (consp x) (cons (car x) (app (cdr x) y)) y))

(defun at (n x)
  (if (zp n) (car x) (at (- n 1) (cdr x))))

(defthm at-app
  (implies (natp n)
           (equal (at (+ (len x) n) (app x y)) (at n y))))
