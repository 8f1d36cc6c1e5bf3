; Rules and theories: which way a rule leads, what relieves its hypotheses, and when to disable what stands in its way.
(in-package "ACL2")

(defun app (x y)
  (if (consp x) (cons (car x) (app (cdr x) y)) y))

(defun rev (x)
  (if (consp x) (app (rev (cdr x)) (cons (car x) nil)) nil))

; A rule leads from left to right: from here on calls of APP stand to the right, so lemmas about them are said that way.
(defthm app-assoc
  (equal (app (app x y) z) (app x (app y z))))

; A rule with a hypothesis is used only where the hypothesis becomes true. It does for `(rev x)`, by the rule behind it.
(defthm app-nil
  (implies (true-listp x) (equal (app x nil) x)))

(defthm true-listp-rev
  (true-listp (rev x)))

; The proof uses all three.
(defthm rev-app
  (equal (rev (app x y)) (app (rev y) (rev x))))

(defthm rev-rev
  (implies (true-listp x) (equal (rev (rev x)) x)))

; The arguments of a call are rewritten before the rules about the call are tried, and where no rule applies a definition
; is opened. So as long as TWICE is enabled `(len (twice x))` becomes `(len (app x x))`, and a rule about it finds
; nothing. Disabled, TWICE stays closed, and the rule is used: the last proof needs no other one.
(defthm len-app
  (equal (len (app x y)) (+ (len x) (len y))))

(defun twice (x)
  (app x x))

(defthm len-twice
  (equal (len (twice x)) (* 2 (len x))))

(in-theory (disable twice))

(defthm len-twice-twice
  (equal (len (twice (twice x))) (* 4 (len x)))
  :rule-classes nil
  :hints (("Goal" :in-theory (disable len-app))))

; Two rules that undo each other would lead round and round, so one of them is disabled, and enabled where it is wanted.
(defthmd app-to-the-left
  (equal (app x (app y z)) (app (app x y) z)))

(defthm four-to-the-left
  (equal (app x (app y (app z u))) (app (app (app x y) z) u))
  :rule-classes nil
  :hints (("Goal" :in-theory (e/d (app-to-the-left) (app-assoc)))))

; What is true of a member under `iff` counts in tests alone.
(defun mem (a x)
  (if (consp x) (if (equal a (car x)) x (mem a (cdr x))) nil))

(defthm mem-app
  (iff (mem a (app x y)) (or (mem a x) (mem a y))))

(defthm mem-rev
  (iff (mem a (rev x)) (mem a x)))
