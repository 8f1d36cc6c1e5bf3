; Logic alone: what simplification proves by splitting at each `if`, without rules and without induction.
(in-package "ACL2")

; `and`, `or`, `implies` and `iff` are calls of `if`, or are opened to them. No class is asked for, so none of these
; theorems is a rule.
(defthm if-same (equal (if x y z) (if x y z)) :rule-classes nil)
(defthm nil-is-nil (equal nil nil) :rule-classes nil)
(defthm same-choice (equal (if (equal a b) t nil) (if (equal a b) t nil)) :rule-classes nil)

; The parts of a hypothesis are taken off before the first goal's line.
(defthm one-of-three
  (implies (and (or a b c) (not a) (not b)) c)
  :rule-classes nil)

; A test is split into the case in which it holds and the one in which it doesn't.
(defthm not-both
  (iff (not (and a b)) (or (not a) (not b)))
  :rule-classes nil)

; An equation of a variable replaces it everywhere, and is gone: the second line is that of `Goal'`.
(defthm replaced
  (implies (equal x (cons y z)) (equal (car x) y))
  :rule-classes nil)
