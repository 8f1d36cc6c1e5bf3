; The middle level too: what is in a list.
(in-package "ACL2")
(include-book "app")

(defun mem (a x)
  (if (consp x) (if (equal a (car x)) t (mem a (cdr x))) nil))

(defthm mem-app
  (equal (mem a (app x y)) (if (mem a x) t (mem a y))))
