; Induction: what the lines of a proof by induction are, one induction within another, and going back to the whole.
(in-package "ACL2")

; Proved by induction. The first line that it prints of the proof is `Goal push *1`: nothing else applies, so the goal is
; set aside. `*1 induct 2 (BINARY-APPEND X Y)` is its induction, as APPEND goes through X, with two cases.
(defthm append-assoc
  (equal (append (append x y) z) (append x (append y z))))

; APPEND-ASSOC is a rewrite rule from here on.
(defthm append-of-three
  (equal (append (append x y) (append z u)) (append x (append y (append z u))))
  :rule-classes nil)

; Inductions within an induction: `*1.1` and `*1.2`.
(defthm true-listp-append
  (implies (true-listp y) (true-listp (append x y))))

; Two goals are pushed at once, so the proof goes back to the whole theorem: `Revert`.
(defthm member-equal-append
  (iff (member-equal a (append x y)) (or (member-equal a x) (member-equal a y)))
  :rule-classes nil)
