; Sorting, 2 of 6: permutations, and that they are what has the same counts.
(in-package "ACL2")

(include-book "sorting-lists")

(defun perm (x y)
  (if (consp x)
      (and (mem (car x) y) (perm (cdr x) (drop-one (car x) y)))
    (atom y)))

(defthm perm-self
  (perm x x))

(defthm perm-has-the-length
  (implies (perm x y) (equal (len x) (len y)))
  :rule-classes nil
  :hints (("Goal" :induct (perm x y))))

(defthm perm-has-the-counts
  (implies (perm x y) (equal (how-often a x) (how-often a y)))
  :rule-classes nil
  :hints (("Goal" :induct (perm x y))))

(defthm perm-has-the-members
  (implies (perm x y) (equal (mem a x) (mem a y)))
  :rule-classes nil
  :hints (("Goal" :induct (perm x y))))

; The members of z are as often in x as in y.
(defun same-counts (z x y)
  (if (consp z)
      (and (equal (how-often (car z) x) (how-often (car z) y))
           (same-counts (cdr z) x y))
    t))

(defthm same-counts-app
  (equal (same-counts (app v w) x y)
         (and (same-counts v x y) (same-counts w x y))))

(defthm same-counts-self
  (same-counts z x x))

(defthm same-counts-turned
  (equal (same-counts z y x) (same-counts z x y))
  :rule-classes nil)

(defthm same-counts-of-a-member
  (implies (and (same-counts z x y) (mem a z))
           (equal (how-often a x) (how-often a y)))
  :rule-classes nil)

(defthm perm-gives-same-counts
  (implies (perm x y) (same-counts z x y))
  :hints (("Goal" :induct (len z))
          ("Subgoal *1/2" :use ((:instance perm-has-the-counts (a (car z)))))))

; The other way: what has the same counts of its own members is a permutation.
(defthm same-counts-drop-one
  (implies (and (same-counts z (cons a x) y) (mem a y))
           (same-counts z x (drop-one a y)))
  :hints (("Goal" :induct (len z))))

(defthm no-counts-of-an-atom
  (implies (and (not (consp x)) (same-counts y x y)) (not (consp y)))
  :rule-classes nil
  :hints (("Goal" :expand ((same-counts y x y)))))

(defthm same-counts-of-fewer
  (implies (same-counts z x y) (same-counts (drop-one a z) x y)))

(defthm mem-by-same-counts
  (implies (and (same-counts z (cons a x) y) (mem a z)) (mem a y))
  :rule-classes nil
  :hints (("Goal" :use ((:instance same-counts-of-a-member (x (cons a x)))))))

(defthmd perm-of-same-counts
  (implies (same-counts (app x y) x y) (perm x y))
  :hints (("Goal" :induct (perm x y))))

(defthm perm-is-same-counts
  (iff (perm x y) (same-counts (app x y) x y))
  :rule-classes nil
  :hints (("Goal" :use perm-of-same-counts :in-theory (disable perm same-counts))))

; So it is an equivalence.
(defthm perm-turned
  (iff (perm y x) (perm x y))
  :rule-classes nil
  :hints (("Goal" :use ((:instance perm-is-same-counts)
                        (:instance perm-is-same-counts (x y) (y x))
                        (:instance same-counts-turned (z x))
                        (:instance same-counts-turned (z y)))
                  :in-theory (disable perm same-counts perm-gives-same-counts))))

(defthm same-counts-chained
  (implies (and (same-counts z x y) (same-counts z y w))
           (same-counts z x w))
  :rule-classes nil
  :hints (("Goal" :induct (len z))))

(defthm perm-chained
  (implies (and (perm x y) (perm y z)) (perm x z))
  :rule-classes nil
  :hints (("Goal" :use ((:instance perm-of-same-counts (y z))
                        (:instance same-counts-chained (z (app x z)) (w z)))
                  :in-theory (disable perm same-counts))))

; What it goes along with.
(defthm perm-cons
  (equal (perm (cons a x) (cons a y)) (perm x y)))

(defthm same-counts-of-joined
  (implies (and (same-counts z x y) (same-counts z v w))
           (same-counts z (app x v) (app y w)))
  :hints (("Goal" :induct (len z))))

(defthm perm-of-joined
  (implies (and (perm x y) (perm v w)) (perm (app x v) (app y w)))
  :hints (("Goal" :use ((:instance perm-of-same-counts (x (app x v)) (y (app y w))))
                  :in-theory (disable perm same-counts))))

(defthm same-counts-of-joined-turned
  (same-counts z (app x y) (app y x))
  :hints (("Goal" :induct (len z))))

(defthm perm-of-joined-turned
  (perm (app x y) (app y x))
  :hints (("Goal" :in-theory (e/d (perm-of-same-counts) (perm same-counts perm-gives-same-counts)))))

(defthm same-counts-of-turned-round
  (same-counts z (rev x) x)
  :hints (("Goal" :induct (len z))))

(defthm perm-of-turned-round
  (perm (rev x) x)
  :hints (("Goal" :in-theory (e/d (perm-of-same-counts) (perm same-counts perm-gives-same-counts)))))

(defthm same-counts-of-both-fewer
  (implies (and (same-counts z x y) (equal (mem a x) (mem a y)))
           (same-counts z (drop-one a x) (drop-one a y)))
  :hints (("Goal" :induct (len z))))

(defthm perm-of-both-fewer
  (implies (perm x y) (perm (drop-one a x) (drop-one a y)))
  :hints (("Goal" :use ((:instance perm-of-same-counts (x (drop-one a x)) (y (drop-one a y)))
                        (:instance perm-has-the-members))
                  :in-theory (disable perm same-counts))))

; What permutations keep.
(defthm integers-drop-one-of-an-integer
  (implies (and (mem a y) (integerp a))
           (equal (integers (drop-one a y)) (integers y))))

(defthm no-integers
  (implies (and (mem a y) (not (integerp a))) (not (integers y))))

(defthm perm-has-the-integers
  (implies (perm x y) (equal (integers x) (integers y)))
  :rule-classes nil
  :hints (("Goal" :induct (perm x y))))

(defthm at-least-drop-one-of-more
  (implies (and (mem b y) (<= a b))
           (equal (at-least a (drop-one b y)) (at-least a y))))

(defthm at-most-drop-one-of-less
  (implies (and (mem b y) (<= b a))
           (equal (at-most a (drop-one b y)) (at-most a y))))

(defthm perm-has-the-lower-bound
  (implies (and (perm x y) (at-least a x)) (at-least a y))
  :rule-classes nil
  :hints (("Goal" :induct (perm x y))))

(defthm perm-has-the-upper-bound
  (implies (and (perm x y) (at-most a x)) (at-most a y))
  :rule-classes nil
  :hints (("Goal" :induct (perm x y))))
