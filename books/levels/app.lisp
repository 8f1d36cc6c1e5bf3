; The lowest of three levels: two lists one behind the other. ../../tools/order.py finds the order of the books of this
; folder: rev and members stand on app, palindrome on these two, and total on app alone.
(in-package "ACL2")

(defun app (x y)
  (if (consp x) (cons (car x) (app (cdr x) y)) y))

(defthm app-assoc
  (equal (app (app x y) z) (app x (app y z))))

(defthm app-nil
  (implies (true-listp x) (equal (app x nil) x)))
