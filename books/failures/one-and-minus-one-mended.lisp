; one-and-minus-one.lisp with the rule that it needs.
(in-package "ACL2")

(defun app (x y)
  (if (consp x) (cons (car x) (app (cdr x) y)) y))

(defun at (n x)
  (if (zp n) (car x) (at (- n 1) (cdr x))))

(defthm minus-one-plus-one
  (implies (integerp x) (equal (+ -1 (+ 1 x)) x)))

(defthm at-app
  (implies (natp n)
           (equal (at (+ (len x) n) (app x y)) (at n y))))
