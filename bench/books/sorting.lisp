; Sorting, 6 of 6: both ways of sorting give the same list, and what follows from that.
(in-package "ACL2")

(include-book "sorting-merge")
(include-book "sorting-keyed")

(in-theory (disable perm ordered insertion-sort merge-sort insert integers))

(defthm merge-sort-is-insertion-sort
  (implies (integers x)
           (equal (merge-sort x) (insertion-sort x)))
  :rule-classes nil
  :hints (("Goal" :use ((:instance insertion-sort-of-perm (y (merge-sort x)))))))

(defthm merge-sort-twice
  (implies (integers x)
           (equal (merge-sort (merge-sort x)) (merge-sort x)))
  :hints (("Goal" :use ((:instance merge-sort-is-insertion-sort)
                        (:instance merge-sort-is-insertion-sort (x (merge-sort x)))))))

(defthm sort-of-turned-round
  (implies (integers x)
           (equal (insertion-sort (rev x)) (insertion-sort x)))
  :hints (("Goal" :use ((:instance insertion-sort-of-perm (x (rev x)) (y x))))))

(defthm sort-of-joined-turned
  (implies (and (integers x) (integers y))
           (equal (insertion-sort (app x y)) (insertion-sort (app y x))))
  :rule-classes nil
  :hints (("Goal" :use ((:instance insertion-sort-of-perm (x (app x y)) (y (app y x)))))))

(defthm merge-of-sorted-is-sort-of-joined
  (implies (and (integers x) (integers y) (true-listp x) (true-listp y)
                (ordered x) (ordered y)
                (perm (app x y) (merge2 x y)))
           (equal (merge2 x y) (insertion-sort (app x y))))
  :rule-classes nil
  :hints (("Goal" :use ((:instance insertion-sort-of-perm (x (app x y)) (y (merge2 x y)))))))

(defthm same-counts-merge2
  (same-counts z (app x y) (merge2 x y))
  :hints (("Goal" :induct (len z))))

(defthm perm-merge2
  (perm (app x y) (merge2 x y))
  :hints (("Goal" :in-theory (e/d (perm-of-same-counts) (perm-gives-same-counts same-counts)))))

(defthm merge2-turned
  (implies (and (integers x) (integers y) (true-listp x) (true-listp y)
                (ordered x) (ordered y))
           (equal (merge2 x y) (merge2 y x)))
  :rule-classes nil
  :hints (("Goal" :use ((:instance merge-of-sorted-is-sort-of-joined)
                        (:instance merge-of-sorted-is-sort-of-joined (x y) (y x))
                        (:instance sort-of-joined-turned)))))

; The least of a and the elements of x.
(defun lesser (a b) (if (<= a b) a b))

(defun least-of (a x)
  (if (consp x) (least-of (lesser a (car x)) (cdr x)) a))

(defthm least-of-at-most
  (<= (least-of a x) a)
  :rule-classes :linear
  :hints (("Goal" :induct (least-of a x))))

(defthm least-of-is-a-bound
  (at-least (least-of a x) x)
  :hints (("Goal" :induct (least-of a x))))

(defthm least-of-is-one-of-them
  (mem (least-of a x) (cons a x))
  :rule-classes nil
  :hints (("Goal" :induct (least-of a x))))
