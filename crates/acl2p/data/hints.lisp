; Hints: what a user says of a goal, by the name that the goal prints with. docs/MANUAL.md has them all.
(in-package "ACL2")

; A function that is disabled isn't opened. A theory opens it for one proof.
(defund same (x) (equal x x))
(defthm same-is-true (same x)
  :rule-classes nil
  :hints (("Goal" :in-theory (enable same))))

; A theorem of no class is no rule, so it is used where a hint says so: its negated instance stands before the goal's
; literals, and the line is "Goal hint 1".
(defthm same-of-cons (same (cons a b))
  :rule-classes nil
  :hints (("Goal" :use ((:instance same-is-true (x (cons a b)))))))

; Each of these two rules has a hypothesis that nothing decides by itself. By cases each is relieved: "Goal hint 2".
(defund known (x) (or (consp x) (atom x)))
(defthm known-cons (implies (consp x) (known x))
  :hints (("Goal" :in-theory (enable known))))
(defthm known-atom (implies (atom x) (known x))
  :hints (("Goal" :in-theory (enable known))))
(defthm known-all (known x)
  :rule-classes nil
  :hints (("Goal" :cases ((consp x)))))

; A call of a recursive function is opened where a test of its body is decided, or where a hint names it.
(defthm len-opened (equal (len x) (if (consp x) (+ 1 (len (cdr x))) 0))
  :rule-classes nil
  :hints (("Goal" :expand ((len x)))))

; The induction is by the call that the hint gives, and the goal is pushed at once.
(defun app (x y) (if (consp x) (cons (car x) (app (cdr x) y)) y))
(defthm app-assoc (equal (app (app x y) z) (app x (app y z)))
  :hints (("Goal" :induct (app x y))))

; Hints of a function hold for what it owes: here its measure's obligations are proved in a theory with `size` opened.
(defund size (x) (acl2-count x))
(defun last-of (x)
  (declare (xargs :measure (size x) :hints (("Goal" :in-theory (enable size)))))
  (if (consp (cdr x)) (last-of (cdr x)) x))
