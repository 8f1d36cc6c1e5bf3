; Bit vectors, 4 of 4: differences, comparison, products, signed numbers, and the bits of a number.
(in-package "ACL2")

(include-book "bits-adder")

(in-theory (disable add-bits add-mod carry-out add-any add-one alike))

; x - y as x + (flip y) + 1; the carry says whether y is at most x.
(defun sub-bits (x y) (add-bits x (flip y) t))

(defthm nat-of-sub-bits
  (implies (alike x y)
           (equal (nat-of (sub-bits x y))
                  (+ (power2 (len y)) (nat-of x) (- (nat-of y)))))
  :hints (("Goal" :do-not-induct t)))

(defthm power2-of-alike
  (implies (alike x y) (equal (power2 (len y)) (power2 (len x))))
  :rule-classes nil
  :hints (("Goal" :use alike-has-the-length)))

(defun sub-mod (x y) (add-mod x (flip y) t))

(defun at-most-bits (y x) (carry-out x (flip y) t))

(defthm sub-mod-and-carry
  (implies (alike x y)
           (equal (+ (nat-of (sub-mod x y))
                     (* (power2 (len x)) (digit (at-most-bits y x))))
                  (+ (power2 (len y)) (nat-of x) (- (nat-of y)))))
  :rule-classes nil
  :hints (("Goal" :do-not-induct t :use ((:instance nat-of-add-mod (y (flip y)) (c t))))))

(defthm len-sub-mod
  (equal (len (sub-mod x y)) (len x)))

(defthm nat-of-sub-mod-below
  (< (nat-of (sub-mod x y)) (power2 (len x)))
  :rule-classes nil
  :hints (("Goal" :use ((:instance nat-of-below-power2 (x (sub-mod x y))))
                  :in-theory (disable sub-mod))))

(defthm at-most-bits-is-at-most
  (implies (alike x y)
           (iff (at-most-bits y x) (<= (nat-of y) (nat-of x))))
  :hints (("Goal" :do-not-induct t
                  :use (sub-mod-and-carry nat-of-sub-mod-below power2-of-alike)
                  :in-theory (disable sub-mod at-most-bits))))

(defthm nat-of-sub-mod
  (implies (and (alike x y) (<= (nat-of y) (nat-of x)))
           (equal (nat-of (sub-mod x y)) (- (nat-of x) (nat-of y))))
  :hints (("Goal" :do-not-induct t
                  :use (sub-mod-and-carry power2-of-alike)
                  :in-theory (disable sub-mod at-most-bits))))

(defthm sub-mod-self
  (equal (nat-of (sub-mod x x)) 0)
  :hints (("Goal" :in-theory (disable sub-mod))))

; Comparison from the highest bit down, by the vectors turned round.
(defun less-bits (x y below)
  (if (consp x)
      (less-bits (cdr x) (cdr y)
                 (if (car x) (if (car y) below nil) (if (car y) t below)))
    below))

(defthm less-bits-is-less
  (implies (alike x y)
           (iff (less-bits x y below)
                (if below (<= (nat-of x) (nat-of y)) (< (nat-of x) (nat-of y)))))
  :hints (("Goal" :induct (less-bits x y below) :in-theory (enable alike digit))))

; Products.
(defun times-bits (x y)
  (if (consp x)
      (if (car x)
          (add-any y (cons nil (times-bits (cdr x) y)) nil)
        (cons nil (times-bits (cdr x) y)))
    nil))

(defthm bits-p-times-bits
  (bits-p (times-bits x y)))

(defthm nat-of-times-bits
  (equal (nat-of (times-bits x y)) (* (nat-of x) (nat-of y))))

(defthm times-bits-turned
  (equal (nat-of (times-bits x y)) (nat-of (times-bits y x)))
  :rule-classes nil)

(defthm times-bits-of-sum
  (equal (nat-of (times-bits x (add-any y z nil)))
         (nat-of (add-any (times-bits x y) (times-bits x z) nil)))
  :rule-classes nil)

; With an accumulator.
(defun times-onto (x y a)
  (if (consp x)
      (times-onto (cdr x) (cons nil y) (if (car x) (add-any y a nil) a))
    a))

(defthm nat-of-times-onto
  (equal (nat-of (times-onto x y a)) (+ (nat-of a) (* (nat-of x) (nat-of y))))
  :hints (("Goal" :induct (times-onto x y a))))

(defthm both-products-are-equal
  (equal (nat-of (times-onto x y nil)) (nat-of (times-bits x y))))

; Signed numbers: the highest bit, s, counts below 0; x has the others.
(defun int-of (x s)
  (- (nat-of x) (if s (power2 (len x)) 0)))

(defthm integerp-int-of
  (integerp (int-of x s))
  :rule-classes :type-prescription)

(defthm int-of-flip
  (equal (int-of (flip x) (not s)) (- -1 (int-of x s))))

(defthm sign-is-negative
  (iff (< (int-of x s) 0) s)
  :rule-classes nil)

(defthm int-of-from
  (implies (not (< (int-of x s) 0)) (equal (int-of x s) (nat-of x)))
  :rule-classes nil)

(defthm int-of-at-least
  (<= (- (power2 (len x))) (int-of x s))
  :rule-classes nil)

(defthm int-of-below
  (< (int-of x s) (power2 (len x)))
  :rule-classes nil)

; One bit more, the same as the highest, changes no number.
(defthm int-of-wider
  (equal (int-of (app x (cons s nil)) s) (int-of x s)))

(defthm int-of-padded
  (equal (int-of (app x (zeros n)) nil) (int-of x nil)))

(in-theory (disable int-of))

; The bits of a number.
(defun next-half (p)
  (if (car p) (cons nil (+ 1 (cdr p))) (cons t (cdr p))))

; Whether n is odd, and its half.
(defun halved (n)
  (if (zp n) (cons nil 0) (next-half (halved (- n 1)))))

(defun odd (n) (if (car (halved n)) t nil))

(defun half (n) (cdr (halved n)))

(defthm integerp-cdr-halved
  (integerp (cdr (halved n))))

(defthm integerp-half
  (integerp (half n))
  :rule-classes :type-prescription)

(defthm odd-and-half
  (implies (natp n) (equal (+ (digit (odd n)) (* 2 (half n))) n))
  :rule-classes nil
  :hints (("Goal" :induct (halved n))))

(defthm cdr-halved-not-negative
  (<= 0 (cdr (halved n)))
  :rule-classes nil
  :hints (("Goal" :induct (halved n))))

(defthm half-not-negative
  (<= 0 (half n))
  :rule-classes :linear
  :hints (("Goal" :use cdr-halved-not-negative)))

(in-theory (disable odd half))

(defthm bit-and-twice-is-natural
  (implies (natp m) (natp (+ (digit b) (* 2 m)))))

(defthm half-of-bits
  (implies (natp m)
           (equal (half (+ (digit b) (* 2 m))) m))
  :hints (("Goal" :use ((:instance odd-and-half (n (+ (digit b) (* 2 m))))
                        (:instance nat-of-bit-and-rest
                                   (a (odd (+ (digit b) (* 2 m))))
                                   (m (half (+ (digit b) (* 2 m))))
                                   (n m))))))

(defthm odd-of-bits
  (implies (natp m)
           (iff (odd (+ (digit b) (* 2 m))) b))
  :hints (("Goal" :use ((:instance odd-and-half (n (+ (digit b) (* 2 m))))
                        (:instance nat-of-bit-and-rest
                                   (a (odd (+ (digit b) (* 2 m))))
                                   (m (half (+ (digit b) (* 2 m))))
                                   (n m))))))

(defun bits-of (w n)
  (if (zp w) nil (cons (odd n) (bits-of (- w 1) (half n)))))

(defthm bits-p-bits-of
  (bits-p (bits-of w n)))

(defthm len-bits-of
  (implies (natp w) (equal (len (bits-of w n)) w))
  :hints (("Goal" :induct (bits-of w n))))

(defthm half-below
  (implies (and (natp n) (< n (* 2 p))) (< (half n) p))
  :hints (("Goal" :use odd-and-half)))

(defthm nat-of-odd-and-half
  (implies (and (natp n) (equal (nat-of x) (half n)))
           (equal (nat-of (cons (odd n) x)) n))
  :hints (("Goal" :use odd-and-half)))

(defthm power2-by-one-less
  (implies (and (integerp w) (< 0 w))
           (equal (power2 w) (* 2 (power2 (+ -1 w)))))
  :hints (("Goal" :in-theory (enable power2))))

(defthm nat-of-bits-of
  (implies (and (natp n) (natp w) (< n (power2 w)))
           (equal (nat-of (bits-of w n)) n))
  :hints (("Goal" :induct (bits-of w n))))

(in-theory (disable power2-by-one-less))

(defthm bits-of-nat-of
  (equal (nat-of (bits-of (len x) (nat-of x))) (nat-of x))
  :hints (("Goal" :in-theory (disable bits-of))))

(defthm bits-of-nat-of-is-the-vector
  (implies (bits-p x) (equal (bits-of (len x) (nat-of x)) x))
  :hints (("Goal" :use ((:instance nat-of-gives-the-bits
                                   (x (bits-of (len x) (nat-of x))) (y x))
                        (:instance alike-by-length
                                   (x (bits-of (len x) (nat-of x))) (y x)))
                  :in-theory (disable bits-of))))

(defthm add-by-numbers
  (implies (and (bits-p x) (bits-p y) (alike x y))
           (equal (bits-of (+ 1 (len x)) (+ (nat-of x) (nat-of y)))
                  (add-bits x y nil)))
  :rule-classes nil
  :hints (("Goal" :use ((:instance bits-of-nat-of-is-the-vector (x (add-bits x y nil))))
                  :in-theory (disable bits-of bits-of-nat-of-is-the-vector))))
