; Another top, on app alone: the sum of a list.
(in-package "ACL2")
(include-book "app")

(defun total (x)
  (if (consp x) (+ (car x) (total (cdr x))) 0))

(defthm total-app
  (equal (total (app x y)) (+ (total x) (total y))))
