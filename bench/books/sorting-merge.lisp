; Sorting, 4 of 6: merge sort.
(in-package "ACL2")

(include-book "sorting-insertion")

; Each second element, from the first on, or from the second on.
(defun part (x now)
  (if (consp x)
      (if now (cons (car x) (part (cdr x) nil)) (part (cdr x) t))
    nil))

(defthm part-of-nothing
  (implies (not (consp x)) (equal (part x now) nil)))

(defthm part-takes
  (implies (and (consp x) now) (equal (part x now) (cons (car x) (part (cdr x) nil)))))

(defthm part-passes-over
  (implies (and (consp x) (not now)) (equal (part x now) (part (cdr x) t))))

; These say how it goes, and no more than the next step of it.
(in-theory (disable (:definition part)))

(defthm true-listp-part
  (true-listp (part x now))
  :hints (("Goal" :induct (part x now))))

(defthm len-part
  (<= (len (part x now)) (len x))
  :rule-classes :linear
  :hints (("Goal" :induct (part x now))))

(defthm integers-part
  (implies (integers x) (integers (part x now)))
  :hints (("Goal" :induct (part x now))))

(defthm at-least-part
  (implies (at-least a x) (at-least a (part x now)))
  :hints (("Goal" :induct (part x now))))

(defthm mem-part
  (implies (mem a (part x now)) (mem a x))
  :rule-classes nil
  :hints (("Goal" :induct (part x now))))

(defthm len-parts
  (equal (+ (len (part x t)) (len (part x nil))) (len x))
  :rule-classes :linear
  :hints (("Goal" :induct (len x))))

(defthm how-often-parts
  (equal (+ (how-often a (part x t)) (how-often a (part x nil))) (how-often a x))
  :rule-classes :linear
  :hints (("Goal" :induct (len x))))

(defthm mem-parts
  (equal (or (mem a (part x t)) (mem a (part x nil))) (mem a x))
  :rule-classes nil
  :hints (("Goal" :induct (len x))))

(defthm integers-parts
  (equal (and (integers (part x t)) (integers (part x nil))) (integers x))
  :rule-classes nil
  :hints (("Goal" :induct (len x))))

; Merging.
(defun merge2 (x y)
  (declare (xargs :measure (+ (len x) (len y))))
  (if (consp x)
      (if (consp y)
          (if (<= (car x) (car y))
              (cons (car x) (merge2 (cdr x) y))
            (cons (car y) (merge2 x (cdr y))))
        x)
    y))

(defthm merge2-of-nothing
  (implies (not (consp x)) (equal (merge2 x y) y)))

(defthm merge2-with-nothing
  (implies (and (consp x) (not (consp y))) (equal (merge2 x y) x)))

(defthm merge2-takes-left
  (implies (and (consp x) (consp y) (<= (car x) (car y)))
           (equal (merge2 x y) (cons (car x) (merge2 (cdr x) y)))))

(defthm merge2-takes-right
  (implies (and (consp x) (consp y) (< (car y) (car x)))
           (equal (merge2 x y) (cons (car y) (merge2 x (cdr y))))))

(in-theory (disable (:definition merge2)))

(defthm true-listp-merge2
  (implies (and (true-listp x) (true-listp y)) (true-listp (merge2 x y)))
  :hints (("Goal" :induct (merge2 x y))))

(defthm len-merge2
  (equal (len (merge2 x y)) (+ (len x) (len y)))
  :hints (("Goal" :induct (merge2 x y))))

(defthm how-often-merge2
  (equal (how-often a (merge2 x y)) (+ (how-often a x) (how-often a y)))
  :hints (("Goal" :induct (merge2 x y))))

(defthm mem-merge2
  (equal (mem a (merge2 x y)) (or (mem a x) (mem a y)))
  :hints (("Goal" :induct (merge2 x y))))

(defthm integers-merge2
  (equal (integers (merge2 x y)) (and (integers x) (integers y)))
  :hints (("Goal" :induct (merge2 x y))))

(defthm at-least-merge2
  (equal (at-least a (merge2 x y)) (and (at-least a x) (at-least a y)))
  :hints (("Goal" :induct (merge2 x y))))

(defthm ordered-merge2
  (implies (and (ordered x) (ordered y)) (ordered (merge2 x y)))
  :hints (("Goal" :induct (merge2 x y))))

(defthm merge2-of-one
  (implies (true-listp x) (equal (merge2 (cons a nil) x) (insert a x)))
  :hints (("Goal" :induct (insert a x))))

; Sorting.
(defun merge-sort (x)
  (declare (xargs :measure (len x)))
  (if (consp x)
      (if (consp (cdr x))
          (merge2 (merge-sort (part x t)) (merge-sort (part x nil)))
        (cons (car x) nil))
    nil))

; What was said of these is used, and not how they go.
(in-theory (disable merge2-of-nothing merge2-with-nothing merge2-takes-left merge2-takes-right
                    part-of-nothing part-takes part-passes-over))

(defthm true-listp-merge-sort
  (true-listp (merge-sort x))
  :hints (("Goal" :induct (merge-sort x))))

(defthm ordered-merge-sort
  (ordered (merge-sort x))
  :hints (("Goal" :induct (merge-sort x))))

(defthm len-of-none
  (implies (not (consp x)) (equal (len x) 0)))

(defthm len-of-one
  (implies (and (consp x) (not (consp (cdr x)))) (equal (len x) 1)))

(defthm len-merge-sort
  (equal (len (merge-sort x)) (len x))
  :hints (("Goal" :induct (merge-sort x) :in-theory (disable len))))

(defthm how-often-of-one
  (implies (and (consp x) (not (consp (cdr x))))
           (equal (how-often a (cons (car x) nil)) (how-often a x))))

(defthm how-often-merge-sort
  (equal (how-often a (merge-sort x)) (how-often a x))
  :hints (("Goal" :induct (merge-sort x) :in-theory (disable how-often))))

(defthm same-counts-merge-sort
  (same-counts z x (merge-sort x))
  :hints (("Goal" :induct (len z) :in-theory (disable merge-sort))))

(defthm perm-merge-sort
  (perm x (merge-sort x))
  :hints (("Goal" :in-theory (e/d (perm-of-same-counts)
                                  (merge-sort perm same-counts perm-gives-same-counts)))))

(defthm integers-merge-sort
  (equal (integers (merge-sort x)) (integers x))
  :hints (("Goal" :use ((:instance perm-has-the-integers (y (merge-sort x))))
                  :in-theory (disable merge-sort perm integers))))

(defthm mem-merge-sort
  (equal (mem a (merge-sort x)) (mem a x))
  :hints (("Goal" :use ((:instance perm-has-the-members (y (merge-sort x))))
                  :in-theory (disable merge-sort perm mem))))
