; Finite sets, 4 of 4: the laws of unions, sections and differences, sets of lists, intervals, shifts, sums, and how many
; elements there are.
(in-package "ACL2")

(include-book "sets-joined")

; An element of x that isn't in y, where there is one.
(defun outside (x y)
  (if (consp x) (if (in (car x) y) (outside (cdr x) y) (car x)) nil))

(defthm outside-is-outside
  (implies (not (subset x y))
           (and (in (outside x y) x) (not (in (outside x y) y))))
  :rule-classes nil)

(defun differing (x y)
  (if (subset x y) (outside y x) (outside x y)))

(defthm sets-are-equal-by-elements
  (implies (and (set-p x) (set-p y)
                (equal (in (differing x y) x) (in (differing x y) y)))
           (equal x y))
  :rule-classes nil
  :hints (("Goal" :use ((:instance sets-are-equal-by-subsets)
                        (:instance outside-is-outside)
                        (:instance outside-is-outside (x y) (y x)))
                  :in-theory (disable subset set-p in outside))))

; From here on a set is what its elements say.
(in-theory (disable joined section less set-p subset in differing outside))

(defthm section-of-joined
  (implies (and (set-p x) (set-p y) (set-p z))
           (equal (section x (joined y z))
                  (joined (section x y) (section x z))))
  :rule-classes nil
  :hints (("Goal" :use ((:instance sets-are-equal-by-elements
                                   (x (section x (joined y z)))
                                   (y (joined (section x y) (section x z))))))))

(defthm joined-of-section
  (implies (and (set-p x) (set-p y) (set-p z))
           (equal (joined x (section y z))
                  (section (joined x y) (joined x z))))
  :rule-classes nil
  :hints (("Goal" :use ((:instance sets-are-equal-by-elements
                                   (x (joined x (section y z)))
                                   (y (section (joined x y) (joined x z))))))))

(defthm less-of-joined
  (implies (and (set-p x) (set-p y) (set-p z))
           (equal (less (joined x y) z)
                  (joined (less x z) (less y z))))
  :rule-classes nil
  :hints (("Goal" :use ((:instance sets-are-equal-by-elements
                                   (x (less (joined x y) z))
                                   (y (joined (less x z) (less y z))))))))

(defthm less-of-section
  (implies (and (set-p x) (set-p y) (set-p z))
           (equal (less (section x y) z)
                  (section x (less y z))))
  :rule-classes nil
  :hints (("Goal" :use ((:instance sets-are-equal-by-elements
                                   (x (less (section x y) z))
                                   (y (section x (less y z))))))))

(defthm less-a-section
  (implies (and (set-p x) (set-p y) (set-p z))
           (equal (less x (section y z))
                  (joined (less x y) (less x z))))
  :rule-classes nil
  :hints (("Goal" :use ((:instance sets-are-equal-by-elements
                                   (x (less x (section y z)))
                                   (y (joined (less x y) (less x z))))))))

(defthm less-a-joined
  (implies (and (set-p x) (set-p y) (set-p z))
           (equal (less x (joined y z))
                  (section (less x y) (less x z))))
  :rule-classes nil
  :hints (("Goal" :use ((:instance sets-are-equal-by-elements
                                   (x (less x (joined y z)))
                                   (y (section (less x y) (less x z))))))))

(defthm less-of-less
  (implies (and (set-p x) (set-p y) (set-p z))
           (equal (less x (less y z))
                  (joined (less x y) (section x z))))
  :rule-classes nil
  :hints (("Goal" :use ((:instance sets-are-equal-by-elements
                                   (x (less x (less y z)))
                                   (y (joined (less x y) (section x z))))))))

(defthm joined-with-less
  (implies (and (set-p x) (set-p y))
           (equal (joined x (less y x))
                  (joined x y)))
  :rule-classes nil
  :hints (("Goal" :use ((:instance sets-are-equal-by-elements
                                   (x (joined x (less y x)))
                                   (y (joined x y)))))))

(defthm joined-with-its-section
  (implies (and (set-p x) (set-p y))
           (equal (joined x (section x y))
                  x))
  :rule-classes nil
  :hints (("Goal" :use ((:instance sets-are-equal-by-elements
                                   (x (joined x (section x y)))
                                   (y x))))))

(defthm section-with-its-joined
  (implies (and (set-p x) (set-p y))
           (equal (section x (joined x y))
                  x))
  :rule-classes nil
  :hints (("Goal" :use ((:instance sets-are-equal-by-elements
                                   (x (section x (joined x y)))
                                   (y x))))))

(defthm less-what-is-left
  (implies (and (set-p x) (set-p y))
           (equal (less x (less x y))
                  (section x y)))
  :rule-classes nil
  :hints (("Goal" :use ((:instance sets-are-equal-by-elements
                                   (x (less x (less x y)))
                                   (y (section x y)))))))

(defthm less-of-both-parts
  (implies (and (set-p x) (set-p y))
           (equal (joined (section x y) (less x y))
                  x))
  :rule-classes nil
  :hints (("Goal" :use ((:instance sets-are-equal-by-elements
                                   (x (joined (section x y) (less x y)))
                                   (y x))))))

; What is in one of two alone.
(defun one-alone (x y) (joined (less x y) (less y x)))

(defthm in-one-alone
  (equal (in a (one-alone x y))
         (if (in a x) (not (in a y)) (in a y))))

(defthm set-p-one-alone
  (implies (and (set-p x) (set-p y)) (set-p (one-alone x y))))

(in-theory (disable one-alone))

(defthm one-alone-turned
  (implies (and (set-p x) (set-p y))
           (equal (one-alone x y)
                  (one-alone y x)))
  :rule-classes nil
  :hints (("Goal" :use ((:instance sets-are-equal-by-elements
                                   (x (one-alone x y))
                                   (y (one-alone y x)))))))

(defthm one-alone-assoc
  (implies (and (set-p x) (set-p y) (set-p z))
           (equal (one-alone (one-alone x y) z)
                  (one-alone x (one-alone y z))))
  :rule-classes nil
  :hints (("Goal" :use ((:instance sets-are-equal-by-elements
                                   (x (one-alone (one-alone x y) z))
                                   (y (one-alone x (one-alone y z))))))))

(defthm one-alone-is-joined-less-section
  (implies (and (set-p x) (set-p y))
           (equal (one-alone x y)
                  (less (joined x y) (section x y))))
  :rule-classes nil
  :hints (("Goal" :use ((:instance sets-are-equal-by-elements
                                   (x (one-alone x y))
                                   (y (less (joined x y) (section x y))))))))

(defthm section-of-one-alone
  (implies (and (set-p x) (set-p y) (set-p z))
           (equal (section x (one-alone y z))
                  (one-alone (section x y) (section x z))))
  :rule-classes nil
  :hints (("Goal" :use ((:instance sets-are-equal-by-elements
                                   (x (section x (one-alone y z)))
                                   (y (one-alone (section x y) (section x z))))))))

(defthm one-alone-twice
  (implies (and (set-p x) (set-p y))
           (equal (one-alone x (one-alone x y))
                  y))
  :rule-classes nil
  :hints (("Goal" :use ((:instance sets-are-equal-by-elements
                                   (x (one-alone x (one-alone x y)))
                                   (y y))))))

(defthm one-alone-of-nothing
  (implies (set-p x) (equal (one-alone x nil) x))
  :hints (("Goal" :use ((:instance sets-are-equal-by-elements (x (one-alone x nil)) (y x)))
                  :in-theory (enable in))))

; How many elements there are.
(defthm len-of-joined-and-section
  (implies (and (set-p x) (set-p y))
           (equal (+ (len (joined x y)) (len (section x y))) (+ (len x) (len y))))
  :rule-classes nil
  :hints (("Goal" :induct (joined x y) :in-theory (enable joined section set-p in))))

(defthm len-of-what-is-a-section
  (implies (equal z (section y x)) (<= (len z) (len y)))
  :rule-classes nil)

(defthm len-of-subset
  (implies (and (set-p x) (set-p y) (subset x y)) (<= (len x) (len y)))
  :rule-classes nil
  :hints (("Goal" :use (section-turned (:instance len-of-what-is-a-section (z x))))))

(defthm len-section-right
  (implies (and (set-p x) (set-p y)) (<= (len (section x y)) (len y)))
  :rule-classes :linear
  :hints (("Goal" :use ((:instance section-turned) (:instance len-section (x y) (y x)))
                  :in-theory (disable len-section))))

(defthm len-of-apart
  (implies (and (set-p x) (set-p y) (equal (section x y) nil))
           (equal (len (joined x y)) (+ (len x) (len y))))
  :rule-classes nil
  :hints (("Goal" :use ((:instance len-of-joined-and-section)))))

; The set of a list of integers.
(defun integers (l)
  (if (consp l) (and (integerp (car l)) (integers (cdr l))) t))

(defun app (x y)
  (if (consp x) (cons (car x) (app (cdr x) y)) y))

(defun set-of (l)
  (if (consp l) (put-in (car l) (set-of (cdr l))) nil))

(defthm set-p-set-of
  (implies (integers l) (set-p (set-of l)))
  :hints (("Goal" :in-theory (enable set-p))))

(defthm integers-app
  (equal (integers (app x y)) (and (integers x) (integers y))))

(defthm in-set-of
  (equal (in a (set-of l)) (in a l))
  :hints (("Goal" :in-theory (enable in))))

(defthm in-app
  (equal (in a (app x y)) (or (in a x) (in a y)))
  :hints (("Goal" :in-theory (enable in))))

(defthm integers-of-a-set
  (implies (set-p x) (integers x))
  :hints (("Goal" :in-theory (enable set-p))))

(defthm below-all-set-of
  (equal (below-all a (set-of l)) (below-all a l)))

(defthm set-of-a-set
  (implies (set-p x) (equal (set-of x) x))
  :hints (("Goal" :in-theory (enable set-p))))

(defthm set-of-app
  (implies (and (integers x) (integers y))
           (equal (set-of (app x y)) (joined (set-of x) (set-of y))))
  :rule-classes nil
  :hints (("Goal" :use ((:instance sets-are-equal-by-elements
                                   (x (set-of (app x y)))
                                   (y (joined (set-of x) (set-of y))))))))

(defthm set-of-app-turned
  (implies (and (integers x) (integers y))
           (equal (set-of (app x y)) (set-of (app y x))))
  :rule-classes nil
  :hints (("Goal" :use ((:instance sets-are-equal-by-elements
                                   (x (set-of (app x y)))
                                   (y (set-of (app y x))))))))

(defthm len-set-of
  (implies (integers l) (<= (len (set-of l)) (len l)))
  :rule-classes nil)

; Intervals: n integers from i on.
(defun from-on (i n)
  (if (zp n) nil (cons i (from-on (+ 1 i) (- n 1)))))

(defthm len-from-on
  (implies (natp n) (equal (len (from-on i n)) n))
  :hints (("Goal" :induct (from-on i n))))

(defthm below-all-from-on
  (implies (and (integerp i) (integerp a) (< a i)) (below-all a (from-on i n))))

(defthm set-p-from-on
  (implies (integerp i) (set-p (from-on i n)))
  :hints (("Goal" :in-theory (enable set-p))))

(defthm nothing-below-from-on
  (implies (and (integerp i) (integerp a) (< a i)) (not (in a (from-on i n)))))

; What is less than n, and what isn't.
(defun low (n x)
  (if (consp x) (if (< (car x) n) (cons (car x) (low n (cdr x))) (low n (cdr x))) nil))

(defun high (n x)
  (if (consp x) (if (< (car x) n) (high n (cdr x)) (cons (car x) (high n (cdr x)))) nil))

(defthm in-low
  (equal (in a (low n x)) (and (< a n) (in a x)))
  :hints (("Goal" :in-theory (enable in))))

(defthm in-high
  (equal (in a (high n x)) (and (not (< a n)) (in a x)))
  :hints (("Goal" :in-theory (enable in))))

(defthm below-all-low
  (implies (below-all a x) (below-all a (low n x))))

(defthm below-all-high
  (implies (below-all a x) (below-all a (high n x))))

(defthm set-p-low
  (implies (set-p x) (set-p (low n x)))
  :hints (("Goal" :in-theory (enable set-p))))

(defthm set-p-high
  (implies (set-p x) (set-p (high n x)))
  :hints (("Goal" :in-theory (enable set-p))))

(defthm joined-low-high
  (implies (set-p x) (equal (joined (low n x) (high n x)) x))
  :hints (("Goal" :use ((:instance sets-are-equal-by-elements
                                   (x (joined (low n x) (high n x))) (y x))))))

(defthm section-low-high
  (implies (set-p x) (equal (section (low n x) (high n x)) nil))
  :hints (("Goal" :use ((:instance sets-are-equal-by-elements
                                   (x (section (low n x) (high n x))) (y nil)))
                  :in-theory (enable in))))

(defthm len-low-high
  (equal (+ (len (low n x)) (len (high n x))) (len x))
  :rule-classes :linear)

; Each element with n added.
(defun shifted (n x)
  (if (consp x) (cons (+ n (car x)) (shifted n (cdr x))) nil))

(defthm len-shifted
  (equal (len (shifted n x)) (len x)))

(defthm below-all-shifted
  (implies (and (integers x) (integerp n) (integerp a))
           (equal (below-all (+ n a) (shifted n x)) (below-all a x))))

(defthm set-p-shifted
  (implies (and (set-p x) (integerp n)) (set-p (shifted n x)))
  :hints (("Goal" :in-theory (enable set-p))))

(defthm shifted-shifted
  (equal (shifted m (shifted n x)) (shifted (+ m n) x)))

(defthm shifted-by-0
  (implies (set-p x) (equal (shifted 0 x) x))
  :hints (("Goal" :in-theory (enable set-p))))

; The sum of the elements.
(defun sum-of (x)
  (if (consp x) (+ (car x) (sum-of (cdr x))) 0))

(defthm sum-of-put-in
  (implies (and (set-p x) (integerp a))
           (equal (sum-of (put-in a x)) (if (in a x) (sum-of x) (+ a (sum-of x)))))
  :hints (("Goal" :in-theory (enable set-p in))))

(defthm sum-of-joined-and-section
  (implies (and (set-p x) (set-p y))
           (equal (+ (sum-of (joined x y)) (sum-of (section x y)))
                  (+ (sum-of x) (sum-of y))))
  :rule-classes nil
  :hints (("Goal" :induct (joined x y) :in-theory (enable joined section set-p in))))
