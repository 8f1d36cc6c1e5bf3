; The middle level: a list the other way round.
(in-package "ACL2")
(include-book "app")

(defun rev (x)
  (if (consp x) (app (rev (cdr x)) (list (car x))) nil))

(defthm true-listp-rev
  (true-listp (rev x)))

(defthm rev-app
  (equal (rev (app x y)) (app (rev y) (rev x))))

(defthm rev-rev
  (implies (true-listp x) (equal (rev (rev x)) x)))
