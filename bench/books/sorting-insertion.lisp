; Sorting, 3 of 6: lists that are in order, and sorting by insertion.
(in-package "ACL2")

(include-book "sorting-perm")

(defun ordered (x)
  (if (consp x) (and (at-least (car x) (cdr x)) (ordered (cdr x))) t))

; The same, each beside the one before it.
(defun in-steps (a x)
  (declare (xargs :measure (acl2-count x)))
  (if (consp x) (and (<= a (car x)) (in-steps (car x) (cdr x))) t))

(defthm in-steps-gives-bound
  (implies (in-steps a x) (at-least a x))
  :hints (("Goal" :induct (in-steps a x))))

(defthm in-steps-gives-ordered
  (implies (in-steps a x) (ordered x))
  :rule-classes nil
  :hints (("Goal" :induct (in-steps a x))))

(defthm ordered-gives-in-steps
  (implies (and (ordered x) (at-least a x)) (in-steps a x))
  :rule-classes nil
  :hints (("Goal" :induct (in-steps a x))))

(defthm ordered-app
  (implies (and (ordered x) (ordered y) (at-most a x) (at-least a y))
           (ordered (app x y))))

(defthm ordered-drop-one
  (implies (ordered x) (ordered (drop-one a x))))

(defthm at-least-without
  (implies (at-least a x) (at-least a (without b x))))

(defthm ordered-without
  (implies (ordered x) (ordered (without a x))))

(defthm head-is-least
  (implies (and (ordered x) (mem a x)) (<= (car x) a)))

; Insertion.
(defun insert (a x)
  (if (consp x)
      (if (<= a (car x)) (cons a x) (cons (car x) (insert a (cdr x))))
    (cons a nil)))

; That it gives a pair opens calls on it too early.
(in-theory (disable (:type-prescription insert)))

(defthm true-listp-insert
  (implies (true-listp x) (true-listp (insert a x))))

(defthm len-insert
  (equal (len (insert a x)) (+ 1 (len x))))

(defthm mem-insert
  (equal (mem a (insert b x)) (or (equal a b) (mem a x))))

(defthm how-often-insert
  (equal (how-often a (insert b x))
         (if (equal a b) (+ 1 (how-often a x)) (how-often a x))))

(defthm integers-insert
  (equal (integers (insert a x)) (and (integerp a) (integers x))))

(defthm at-least-insert
  (equal (at-least a (insert b x)) (and (<= a b) (at-least a x))))

(defthm at-most-insert
  (equal (at-most a (insert b x)) (and (<= b a) (at-most a x))))

(defthm ordered-insert
  (implies (ordered x) (ordered (insert a x))))

(defthm drop-one-insert
  (implies (true-listp x) (equal (drop-one a (insert a x)) x)))

(defthm insert-below
  (implies (and (at-least a x) (true-listp x)) (equal (insert a x) (cons a x))))

(defthm insert-insert
  (implies (and (integerp a) (integerp b))
           (equal (insert a (insert b x)) (insert b (insert a x)))))

; Sorting.
(defun insertion-sort (x)
  (if (consp x) (insert (car x) (insertion-sort (cdr x))) nil))

(defthm true-listp-insertion-sort
  (true-listp (insertion-sort x)))

(defthm ordered-insertion-sort
  (ordered (insertion-sort x)))

(defthm len-insertion-sort
  (equal (len (insertion-sort x)) (len x)))

(defthm mem-insertion-sort
  (equal (mem a (insertion-sort x)) (mem a x)))

(defthm how-often-insertion-sort
  (equal (how-often a (insertion-sort x)) (how-often a x)))

(defthm integers-insertion-sort
  (equal (integers (insertion-sort x)) (integers x)))

(defthm at-least-insertion-sort
  (equal (at-least a (insertion-sort x)) (at-least a x)))

(defthm at-most-insertion-sort
  (equal (at-most a (insertion-sort x)) (at-most a x)))

(defthm perm-insertion-sort
  (perm x (insertion-sort x)))

(defthm insertion-sort-of-ordered
  (implies (and (ordered x) (true-listp x)) (equal (insertion-sort x) x)))

(defthm insertion-sort-twice
  (equal (insertion-sort (insertion-sort x)) (insertion-sort x)))

; Permutations have one sorted list.
(defthm insert-into-sorted-fewer
  (implies (and (mem a y) (integers y))
           (equal (insert a (insertion-sort (drop-one a y))) (insertion-sort y)))
  :hints (("Goal" :induct (drop-one a y) :in-theory (disable insert))))

(defthm insertion-sort-of-perm
  (implies (and (perm x y) (integers x) (integers y))
           (equal (insertion-sort x) (insertion-sort y)))
  :rule-classes nil
  :hints (("Goal" :induct (perm x y) :in-theory (disable insert))))

(defthm sorted-permutations-are-equal
  (implies (and (perm x y) (ordered x) (ordered y) (integers x) (integers y)
                (true-listp x) (true-listp y))
           (equal x y))
  :rule-classes nil
  :hints (("Goal" :use insertion-sort-of-perm
                  :in-theory (disable insertion-sort ordered perm integers))))
