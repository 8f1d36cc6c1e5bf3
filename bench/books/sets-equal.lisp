; Finite sets, 2 of 4: two sets with the same elements are one list.
(in-package "ACL2")

(include-book "sets-base")

(defthm heads-of-subset
  (implies (and (subset x y) (set-p y) (consp x)) (<= (car y) (car x)))
  :rule-classes nil
  :hints (("Goal" :use ((:instance head-is-least (a (car x)) (x y))))))

(defthm heads-are-equal
  (implies (and (subset x y) (subset y x) (set-p x) (set-p y) (consp x))
           (equal (car x) (car y)))
  :rule-classes nil
  :hints (("Goal" :use ((:instance heads-of-subset)
                        (:instance heads-of-subset (x y) (y x))))))

(defthm subset-without-least
  (implies (and (subset x (cons a y)) (below-all a x)) (subset x y))
  :rule-classes nil)

(defun both-rests (x y)
  (if (consp x) (both-rests (cdr x) (cdr y)) (list x y)))

(defthm subset-of-rests
  (implies (and (subset x y) (subset y x) (set-p x) (set-p y) (consp x))
           (and (consp y) (equal (car x) (car y)) (subset (cdr x) (cdr y))))
  :rule-classes nil
  :hints (("Goal" :use ((:instance heads-are-equal)
                        (:instance subset-without-least
                                   (x (cdr x)) (a (car y)) (y (cdr y)))))))

; The same with each part by its name.
(defthm one-step-of-equal-sets
  (implies (and (subset (cons a x) (cons b y)) (subset (cons b y) (cons a x))
                (set-p (cons a x)) (set-p (cons b y)))
           (and (equal a b) (subset x y) (subset y x)))
  :rule-classes nil
  :hints (("Goal" :use ((:instance subset-of-rests (x (cons a x)) (y (cons b y)))
                        (:instance subset-of-rests (x (cons b y)) (y (cons a x))))
                  :in-theory (disable subset in))))

(defun equal-sets (x y)
  (if (and (consp x) (consp y))
      (and (equal (car x) (car y)) (equal-sets (cdr x) (cdr y)))
    (and (not (consp x)) (not (consp y)))))

(defthm equal-sets-is-equal
  (implies (and (true-listp x) (true-listp y))
           (iff (equal-sets x y) (equal x y)))
  :rule-classes nil
  :hints (("Goal" :induct (equal-sets x y))))

; What two sets with the same elements have in common, one step after another.
(defun alike (x y)
  (and (set-p x) (set-p y) (subset x y) (subset y x)))

(defthm alike-turned
  (iff (alike x y) (alike y x))
  :rule-classes nil
  :hints (("Goal" :in-theory (disable set-p subset))))

(defthm alike-pairs
  (implies (and (alike x y) (consp x)) (consp y))
  :rule-classes nil)

(defthm alike-heads
  (implies (and (alike x y) (consp x)) (equal (car x) (car y)))
  :rule-classes nil
  :hints (("Goal" :use subset-of-rests :in-theory (disable set-p subset))))

(defthm set-p-cdr
  (implies (and (set-p x) (consp x)) (set-p (cdr x))))

(defthm alike-rests
  (implies (and (alike x y) (consp x) (consp y)) (alike (cdr x) (cdr y)))
  :hints (("Goal" :use (subset-of-rests (:instance subset-of-rests (x y) (y x)))
                  :in-theory (disable set-p subset))))

(in-theory (disable alike))

(defthm step-of-alike
  (implies (alike x y)
           (and (equal (consp x) (consp y))
                (implies (consp x) (equal (car x) (car y)))))
  :rule-classes nil
  :hints (("Goal" :use (alike-pairs alike-heads alike-turned
                        (:instance alike-pairs (x y) (y x))))))

(defun unlike (x y)
  (if (and (consp x) (consp y))
      (if (equal (car x) (car y)) (unlike (cdr x) (cdr y)) (list x y))
    (list x y)))

; Where two lists part, they aren't alike.
(defthm not-alike-by-heads
  (implies (and (consp x) (not (equal (car x) (car y)))) (not (alike x y)))
  :hints (("Goal" :use alike-heads)))

(defthm not-alike-by-an-end
  (implies (and (consp x) (not (consp y))) (not (alike x y)))
  :hints (("Goal" :use alike-pairs)))

(defthm not-alike-by-the-other-end
  (implies (and (consp y) (not (consp x))) (not (alike x y)))
  :hints (("Goal" :use (alike-turned (:instance alike-pairs (x y) (y x))))))

(defthm alike-sets-are-equal-sets
  (implies (alike x y) (equal-sets x y))
  :rule-classes nil
  :hints (("Goal" :induct (unlike x y))))

(defthm sets-are-equal-by-subsets
  (implies (and (set-p x) (set-p y) (subset x y) (subset y x)) (equal x y))
  :rule-classes nil
  :hints (("Goal" :use (alike-sets-are-equal-sets equal-sets-is-equal)
                  :in-theory (e/d (alike) (subset set-p equal-sets)))))
