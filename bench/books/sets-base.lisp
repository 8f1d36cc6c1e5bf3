; Finite sets, 1 of 4: lists in order without repetition, members, and putting in and taking out.
(in-package "ACL2")

; A set of integers: each element is less than the next.
(defun below-all (a x)
  (if (consp x) (and (< a (car x)) (below-all a (cdr x))) t))

(defun set-p (x)
  (if (consp x)
      (and (integerp (car x)) (below-all (car x) (cdr x)) (set-p (cdr x)))
    (equal x nil)))

(defthm set-p-is-true-listp
  (implies (set-p x) (true-listp x)))

(defthm below-all-of-less
  (implies (and (below-all b x) (<= a b)) (below-all a x)))

(defun in (a x)
  (if (consp x) (or (equal a (car x)) (in a (cdr x))) nil))

(defthm in-below-all
  (implies (and (in a x) (below-all b x)) (< b a))
  :rule-classes nil)

(defthm not-in-below-all
  (implies (below-all a x) (not (in a x))))

(defthm integerp-of-an-element
  (implies (and (in a x) (set-p x)) (integerp a))
  :rule-classes nil)

(defthm no-element
  (implies (and (set-p x) (not (integerp a))) (not (in a x))))

(defthm head-is-least
  (implies (and (in a x) (set-p x)) (<= (car x) a))
  :rule-classes nil)

; Putting in.
(defun put-in (a x)
  (if (consp x)
      (if (< a (car x))
          (cons a x)
        (if (equal a (car x)) x (cons (car x) (put-in a (cdr x)))))
    (cons a nil)))

; That it gives a pair opens calls on it too early.
(in-theory (disable (:type-prescription put-in)))

(defthm in-put-in
  (equal (in a (put-in b x)) (or (equal a b) (in a x))))

(defthm below-all-put-in
  (equal (below-all a (put-in b x)) (and (< a b) (below-all a x))))

(defthm set-p-put-in
  (implies (and (set-p x) (integerp a)) (set-p (put-in a x))))

(defthm put-in-below-all
  (implies (and (below-all a x) (set-p x)) (equal (put-in a x) (cons a x))))

(defthm put-in-of-an-element
  (implies (and (in a x) (set-p x)) (equal (put-in a x) x)))

(defthm put-in-put-in
  (implies (and (integerp a) (integerp b))
           (equal (put-in a (put-in b x)) (put-in b (put-in a x)))))

(defthm len-put-in
  (implies (set-p x)
           (equal (len (put-in a x)) (if (in a x) (len x) (+ 1 (len x))))))

; Taking out.
(defun take-out (a x)
  (if (consp x)
      (if (equal a (car x)) (cdr x) (cons (car x) (take-out a (cdr x))))
    nil))

(defthm below-all-take-out
  (implies (below-all a x) (below-all a (take-out b x))))

(defthm set-p-take-out
  (implies (set-p x) (set-p (take-out a x))))

(defthm in-take-out
  (implies (set-p x)
           (equal (in a (take-out b x)) (and (not (equal a b)) (in a x)))))

(defthm take-out-of-no-element
  (implies (and (not (in a x)) (set-p x)) (equal (take-out a x) x)))

(defthm take-out-take-out
  (equal (take-out a (take-out b x)) (take-out b (take-out a x))))

(defthm take-out-put-in
  (implies (set-p x) (equal (take-out a (put-in a x)) (take-out a x))))

(defthm put-in-take-out
  (implies (and (set-p x) (integerp a)) (equal (put-in a (take-out a x)) (put-in a x))))

(defthm len-take-out
  (equal (len (take-out a x)) (if (in a x) (+ -1 (len x)) (len x))))

(defthm take-out-put-in-of-another
  (implies (and (set-p x) (integerp a) (integerp b) (not (equal a b)))
           (equal (take-out a (put-in b x)) (put-in b (take-out a x)))))

; Subsets, by the elements.
(defun subset (x y)
  (if (consp x) (and (in (car x) y) (subset (cdr x) y)) t))

(defthm subset-cons
  (implies (subset x y) (subset x (cons a y))))

(defthm subset-self
  (subset x x))

(defthm in-subset
  (implies (and (subset x y) (in a x)) (in a y)))

(defthm subset-chained
  (implies (and (subset x y) (subset y z)) (subset x z))
  :hints (("Goal" :induct (subset x y))))

(defthm subset-put-in
  (equal (subset (put-in a x) y) (and (in a y) (subset x y))))

(defthm subset-of-put-in
  (implies (subset x y) (subset x (put-in a y))))

(defthm subset-take-out
  (implies (subset x y) (subset (take-out a x) y)))

(defthm subset-of-nothing
  (implies (not (consp y)) (equal (subset x y) (not (consp x)))))
