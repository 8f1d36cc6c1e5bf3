; Functions that call themselves: a measure that is chosen, one that is given, and what linear arithmetic does for them.
(in-package "ACL2")

; A function that calls itself. Its measure is chosen, `(ACL2-COUNT X)`, and `Obligation 1` shows that it falls at the
; call: that takes linear arithmetic.
(defun app (x y)
  (if (consp x) (cons (car x) (app (cdr x) y)) y))

; Proved by the induction that APP suggests.
(defthm app-assoc
  (equal (app (app x y) z) (app x (app y z))))

; Each case is closed by linear arithmetic, the first one with the hypothesis of the induction.
(defthm len-app
  (equal (len (app x y)) (+ (len x) (len y))))

; A measure that is given: `Obligation 1` says that it is a natural number, `Obligation 2` that it falls.
(defun weave (x y)
  (declare (xargs :measure (+ (len x) (len y))))
  (if (consp x) (cons (car x) (weave y (cdr x))) y))

; A linear rule: linear arithmetic uses it where a term `(len x)` stands, once `(consp x)` is known.
(defthm len-cdr
  (implies (consp x) (< (len (cdr x)) (len x)))
  :rule-classes :linear)
