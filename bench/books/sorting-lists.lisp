; Sorting, 1 of 6: the lists that it speaks of. Joining, members, counts, turning round, taking one out.
(in-package "ACL2")

(defun app (x y)
  (if (consp x) (cons (car x) (app (cdr x) y)) y))

(defthm app-assoc
  (equal (app (app x y) z) (app x (app y z))))

(defthm app-nil
  (implies (true-listp x) (equal (app x nil) x)))

(defthm true-listp-app
  (implies (true-listp y) (true-listp (app x y))))

(defthm consp-app
  (iff (consp (app x y)) (or (consp x) (consp y))))

(defthm len-app
  (equal (len (app x y)) (+ (len x) (len y))))

; Members.
(defun mem (a x)
  (if (consp x) (or (equal a (car x)) (mem a (cdr x))) nil))

(defthm mem-app
  (equal (mem a (app x y)) (or (mem a x) (mem a y))))

(defthm mem-consp
  (implies (mem a x) (consp x))
  :rule-classes nil)

; How often something is in a list.
(defun how-often (a x)
  (if (consp x)
      (if (equal a (car x)) (+ 1 (how-often a (cdr x))) (how-often a (cdr x)))
    0))

(defthm integerp-how-often
  (integerp (how-often a x))
  :rule-classes :type-prescription)

(defthm how-often-not-negative
  (<= 0 (how-often a x))
  :rule-classes :linear)

(defthm how-often-at-most-len
  (<= (how-often a x) (len x))
  :rule-classes :linear)

(defthm how-often-app
  (equal (how-often a (app x y)) (+ (how-often a x) (how-often a y))))

(defthm how-often-of-no-member
  (implies (not (mem a x)) (equal (how-often a x) 0)))

(defthm how-often-of-a-member
  (implies (mem a x) (< 0 (how-often a x)))
  :rule-classes :linear)

; Turning round.
(defun rev (x)
  (if (consp x) (app (rev (cdr x)) (cons (car x) nil)) nil))

(defthm true-listp-rev
  (true-listp (rev x)))

(defthm rev-app
  (equal (rev (app x y)) (app (rev y) (rev x))))

(defthm rev-rev
  (implies (true-listp x) (equal (rev (rev x)) x)))

(defthm len-rev
  (equal (len (rev x)) (len x)))

(defthm mem-rev
  (equal (mem a (rev x)) (mem a x)))

(defthm how-often-rev
  (equal (how-often a (rev x)) (how-often a x)))

; Taking one out.
(defun drop-one (a x)
  (if (consp x)
      (if (equal a (car x)) (cdr x) (cons (car x) (drop-one a (cdr x))))
    nil))

(defthm true-listp-drop-one
  (implies (true-listp x) (true-listp (drop-one a x))))

(defthm drop-one-of-no-member
  (implies (and (not (mem a x)) (true-listp x)) (equal (drop-one a x) x)))

(defthm len-drop-one
  (implies (mem a x) (equal (len (drop-one a x)) (+ -1 (len x)))))

(defthm mem-drop-one-of-another
  (implies (not (equal a b)) (equal (mem a (drop-one b x)) (mem a x))))

(defthm mem-drop-one-gives-mem
  (implies (mem a (drop-one b x)) (mem a x)))

(defthm how-often-drop-one
  (equal (how-often a (drop-one b x))
         (if (and (equal a b) (mem a x)) (+ -1 (how-often a x)) (how-often a x))))

(defthm drop-one-drop-one
  (equal (drop-one a (drop-one b x)) (drop-one b (drop-one a x)))
  :rule-classes nil)

(defthm drop-one-app
  (equal (drop-one a (app x y))
         (if (mem a x) (app (drop-one a x) y) (app x (drop-one a y))))
  :rule-classes nil)

; Taking all of one out.
(defun without (a x)
  (if (consp x)
      (if (equal a (car x)) (without a (cdr x)) (cons (car x) (without a (cdr x))))
    nil))

(defthm true-listp-without
  (true-listp (without a x)))

(defthm mem-without
  (equal (mem a (without b x)) (and (not (equal a b)) (mem a x))))

(defthm how-often-without
  (equal (how-often a (without b x)) (if (equal a b) 0 (how-often a x))))

(defthm without-app
  (equal (without a (app x y)) (app (without a x) (without a y))))

(defthm len-without
  (equal (len (without a x)) (- (len x) (how-often a x))))

; Lists of integers.
(defun integers (x)
  (if (consp x) (and (integerp (car x)) (integers (cdr x))) t))

(defthm integers-app
  (equal (integers (app x y)) (and (integers x) (integers y))))

(defthm integers-rev
  (equal (integers (rev x)) (integers x)))

(defthm integers-drop-one
  (implies (integers x) (integers (drop-one a x))))

(defthm integers-without
  (implies (integers x) (integers (without a x))))

(defthm integerp-of-a-member
  (implies (and (integers x) (mem a x)) (integerp a)))

; What each has in common with a bound.
(defun at-least (a x)
  (if (consp x) (and (<= a (car x)) (at-least a (cdr x))) t))

(defun at-most (a x)
  (if (consp x) (and (<= (car x) a) (at-most a (cdr x))) t))

(defthm at-least-app
  (equal (at-least a (app x y)) (and (at-least a x) (at-least a y))))

(defthm at-most-app
  (equal (at-most a (app x y)) (and (at-most a x) (at-most a y))))

(defthm at-least-of-less
  (implies (and (at-least b x) (<= a b)) (at-least a x)))

(defthm at-most-of-more
  (implies (and (at-most a x) (<= a b)) (at-most b x)))

(defthm at-least-drop-one
  (implies (at-least a x) (at-least a (drop-one b x))))

(defthm at-most-drop-one
  (implies (at-most a x) (at-most a (drop-one b x))))

(defthm at-least-of-a-member
  (implies (and (at-least a x) (mem b x)) (<= a b)))

(defthm at-most-of-a-member
  (implies (and (at-most a x) (mem b x)) (<= b a)))

(defthm at-least-rev
  (equal (at-least a (rev x)) (at-least a x)))

(defthm at-most-rev
  (equal (at-most a (rev x)) (at-most a x)))
