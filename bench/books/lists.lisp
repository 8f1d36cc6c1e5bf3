; Functions on lists, and lemmas about them.
(in-package "ACL2")

(defun app (x y)
  (if (consp x) (cons (car x) (app (cdr x) y)) y))

(defthm app-assoc
  (equal (app (app x y) z) (app x (app y z))))

(defthm app-nil
  (implies (true-listp x) (equal (app x nil) x)))

(defthm true-listp-app
  (implies (true-listp y) (true-listp (app x y))))

(defthm consp-app
  (implies (consp x) (consp (app x y))))

(defthm len-app
  (equal (len (app x y)) (+ (len x) (len y))))

(defthm app-is-append
  (equal (app x y) (append x y))
  :rule-classes nil)

(defun mem (a x)
  (if (consp x) (or (equal a (car x)) (mem a (cdr x))) nil))

(defthm mem-app
  (iff (mem a (app x y)) (or (mem a x) (mem a y))))

(defthm mem-is-member-equal
  (iff (member-equal a x) (mem a x))
  :rule-classes nil)

(defun rev (x)
  (if (consp x) (app (rev (cdr x)) (cons (car x) nil)) nil))

(defthm true-listp-rev
  (true-listp (rev x)))

(defthm rev-app
  (equal (rev (app x y)) (app (rev y) (rev x))))

(defthm rev-rev
  (implies (true-listp x) (equal (rev (rev x)) x)))

(defthm len-rev
  (equal (len (rev x)) (len x)))

(defthm mem-rev
  (iff (mem a (rev x)) (mem a x)))

; The same with an accumulator.
(defun rev-onto (x a)
  (if (consp x) (rev-onto (cdr x) (cons (car x) a)) a))

(defthm rev-onto-is-rev
  (equal (rev-onto x a) (app (rev x) a)))

(defthm rev-onto-nil
  (equal (rev-onto x nil) (rev x)))

; The first n elements, and what is behind them.
(defun front (n x)
  (if (zp n) nil (if (consp x) (cons (car x) (front (- n 1) (cdr x))) nil)))

(defun behind (n x)
  (if (zp n) x (behind (- n 1) (cdr x))))

(defthm front-and-behind
  (implies (and (natp n) (<= n (len x)))
           (equal (app (front n x) (behind n x)) x)))

(defthm true-listp-front
  (true-listp (front n x)))

(defthm len-front
  (implies (and (natp n) (<= n (len x)))
           (equal (len (front n x)) n))
  :hints (("Goal" :induct (front n x))))

(defthm len-behind
  (implies (and (natp n) (<= n (len x)))
           (equal (len (behind n x)) (- (len x) n)))
  :hints (("Goal" :induct (behind n x))))

; Two constants of a sum.
(defthm plus-and-minus-one
  (implies (integerp x) (equal (+ -1 (+ 1 x)) x)))

(defthm front-of-len
  (implies (true-listp x) (equal (front (len x) x) x)))

; Each element of one list is in the other.
(defun sub (x y)
  (if (consp x) (and (mem (car x) y) (sub (cdr x) y)) t))

(defthm sub-cons
  (implies (sub x y) (sub x (cons a y))))

(defthm sub-self
  (sub x x))

(defthm mem-of-sub
  (implies (and (mem a x) (sub x y)) (mem a y)))

(defthm sub-transitive
  (implies (and (sub x y) (sub y z)) (sub x z)))

(defthm sub-app
  (equal (sub (app x y) z) (and (sub x z) (sub y z))))

(defthm sub-of-app-left
  (implies (sub x y) (sub x (app y z))))

(defthm sub-of-app-right
  (implies (sub x z) (sub x (app y z))))

; A list without the elements that are equal to one.
(defun without (a x)
  (if (consp x)
      (if (equal a (car x)) (without a (cdr x)) (cons (car x) (without a (cdr x))))
    nil))

(defthm without-app
  (equal (without a (app x y)) (app (without a x) (without a y))))

(defthm mem-without
  (iff (mem a (without b x)) (and (mem a x) (not (equal a b)))))

(defthm without-twice
  (equal (without a (without a x)) (without a x))
  :hints (("Goal" :do-not '(generalize))))

(defthm without-swap
  (equal (without a (without b x)) (without b (without a x)))
  :rule-classes nil)

(defthm len-without
  (<= (len (without a x)) (len x))
  :rule-classes :linear)

; A list without repeats.
(defun distinct (x)
  (if (consp x) (and (not (mem (car x) (cdr x))) (distinct (cdr x))) t))

(defun singles (x)
  (if (consp x) (cons (car x) (without (car x) (singles (cdr x)))) nil))

(defthm distinct-without
  (implies (distinct x) (distinct (without a x))))

(defthm distinct-singles
  (distinct (singles x)))

(defthm mem-singles
  (iff (mem a (singles x)) (mem a x)))

(defthm len-singles
  (<= (len (singles x)) (len x))
  :rule-classes :linear)

; Pairs of two lists.
(defun pairs (x y)
  (if (and (consp x) (consp y)) (cons (cons (car x) (car y)) (pairs (cdr x) (cdr y))) nil))

(defun firsts (x)
  (if (consp x) (cons (car (car x)) (firsts (cdr x))) nil))

(defun seconds (x)
  (if (consp x) (cons (cdr (car x)) (seconds (cdr x))) nil))

(defthm firsts-of-pairs
  (implies (and (true-listp x) (equal (len x) (len y)))
           (equal (firsts (pairs x y)) x))
  :hints (("Goal" :induct (pairs x y))))

(defthm seconds-of-pairs
  (implies (and (true-listp y) (equal (len x) (len y)))
           (equal (seconds (pairs x y)) y))
  :hints (("Goal" :induct (pairs x y))))

(defthm len-pairs
  (equal (len (pairs x y)) (min (len x) (len y))))

(defthm firsts-app
  (equal (firsts (app x y)) (app (firsts x) (firsts y))))

(defthm len-firsts
  (equal (len (firsts x)) (len x)))
