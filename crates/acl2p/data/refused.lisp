(in-package "ACL2")

(defthm fine (equal x x) :rule-classes nil)
(defthm unproved (equal x y) :rule-classes nil)
(defthm not-reached (equal x x) :rule-classes nil)
