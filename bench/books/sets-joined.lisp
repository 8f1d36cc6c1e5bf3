; Finite sets, 3 of 4: unions, sections and differences.
(in-package "ACL2")

(include-book "sets-equal")

(defun joined (x y)
  (if (consp x) (put-in (car x) (joined (cdr x) y)) y))

(defthm in-joined
  (equal (in a (joined x y)) (or (in a x) (in a y))))

(defthm set-p-joined
  (implies (and (set-p x) (set-p y)) (set-p (joined x y))))

(defthm below-all-joined
  (equal (below-all a (joined x y)) (and (below-all a x) (below-all a y))))

(defthm joined-nothing
  (implies (set-p x) (equal (joined x nil) x)))

(defthm subset-joined
  (equal (subset (joined x y) z) (and (subset x z) (subset y z))))

(defthm subset-of-joined-right
  (implies (subset x z) (subset x (joined y z))))

(defthm subset-of-joined-left
  (implies (subset x y) (subset x (joined y z))))

(defthm joined-of-put-in
  (implies (and (set-p x) (set-p y) (integerp a))
           (equal (joined (put-in a x) y) (put-in a (joined x y)))))

(defthm joined-put-in
  (implies (and (set-p x) (set-p y) (integerp a))
           (equal (joined x (put-in a y)) (put-in a (joined x y)))))

(defthm joined-of-subset
  (implies (and (subset x y) (set-p x) (set-p y)) (equal (joined x y) y))
  :hints (("Goal" :use ((:instance sets-are-equal-by-subsets (x (joined x y))))
                  :in-theory (disable joined set-p subset))))

(defthm joined-self
  (implies (set-p x) (equal (joined x x) x)))

(defthm joined-assoc
  (implies (and (set-p x) (set-p y) (set-p z))
           (equal (joined (joined x y) z) (joined x (joined y z)))))

(defthm joined-turned
  (implies (and (set-p x) (set-p y)) (equal (joined x y) (joined y x)))
  :rule-classes nil
  :hints (("Goal" :use ((:instance sets-are-equal-by-subsets
                                   (x (joined x y)) (y (joined y x))))
                  :in-theory (disable joined subset set-p))))

(defthm len-joined
  (implies (and (set-p x) (set-p y)) (<= (len (joined x y)) (+ (len x) (len y))))
  :rule-classes :linear)

; Sections.
(defun section (x y)
  (if (consp x)
      (if (in (car x) y) (cons (car x) (section (cdr x) y)) (section (cdr x) y))
    nil))

(defthm in-section
  (equal (in a (section x y)) (and (in a x) (in a y))))

(defthm below-all-section
  (implies (below-all a x) (below-all a (section x y))))

(defthm set-p-section
  (implies (set-p x) (set-p (section x y))))

(defthm subset-section-left
  (subset (section x y) x))

(defthm subset-section-right
  (subset (section x y) y))

(defthm subset-of-section
  (equal (subset z (section x y)) (and (subset z x) (subset z y))))

(defthm section-nothing
  (implies (not (consp y)) (equal (section x y) nil)))

(defthm section-of-subset
  (implies (and (subset x y) (set-p x)) (equal (section x y) x)))

(defthm section-assoc
  (equal (section (section x y) z) (section x (section y z))))

(defthm section-turned
  (implies (and (set-p x) (set-p y)) (equal (section x y) (section y x)))
  :rule-classes nil
  :hints (("Goal" :use ((:instance sets-are-equal-by-subsets
                                   (x (section x y)) (y (section y x))))
                  :in-theory (disable section subset set-p))))

(defthm len-section
  (<= (len (section x y)) (len x))
  :rule-classes :linear)

; Differences.
(defun less (x y)
  (if (consp x)
      (if (in (car x) y) (less (cdr x) y) (cons (car x) (less (cdr x) y)))
    nil))

(defthm in-less
  (equal (in a (less x y)) (and (in a x) (not (in a y)))))

(defthm below-all-less
  (implies (below-all a x) (below-all a (less x y))))

(defthm set-p-less
  (implies (set-p x) (set-p (less x y))))

(defthm subset-less
  (subset (less x y) x))

(defthm less-nothing
  (implies (and (not (consp y)) (set-p x)) (equal (less x y) x)))

(defthm less-of-subset
  (implies (subset x y) (equal (less x y) nil)))

(defthm less-less
  (equal (less (less x y) z) (less (less x z) y)))

(defthm less-joined
  (equal (less x (joined y z)) (less (less x y) z)))

(defthm len-of-section-and-less
  (equal (+ (len (section x y)) (len (less x y))) (len x))
  :rule-classes :linear)

(defthm take-out-is-less
  (implies (set-p x) (equal (less x (cons a nil)) (take-out a x))))
