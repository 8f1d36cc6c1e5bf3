; The highest level: lists that are the same the other way round.
(in-package "ACL2")
(include-book "rev")
(include-book "members")

(defun palindromep (x)
  (equal (rev x) x))

(defthm palindrome-of-any
  (implies (true-listp x) (palindromep (app x (rev x)))))

(defthm mem-rev
  (equal (mem a (rev x)) (mem a x)))
