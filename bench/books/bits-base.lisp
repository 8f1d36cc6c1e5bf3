; Bit vectors, 1 of 4: lists of booleans, the lowest first, and the number that each is.
(in-package "ACL2")

; ACL2 begins without this rule of products, and acl2p with it.
(defthm swap-factors
  (equal (* x (* y z)) (* y (* x z)))
  :hints (("Goal" :use ((:instance associativity-of-*)
                        (:instance associativity-of-* (x y) (y x)))
                  :in-theory (disable associativity-of-*))))

; A sum as a left factor.
(defthm product-of-sum
  (equal (* (+ a b) c) (+ (* a c) (* b c)))
  :hints (("Goal" :use ((:instance commutativity-of-* (x (+ a b)) (y c))))))

(defthm next-is-at-most
  (implies (and (integerp a) (integerp b) (< a b)) (<= (+ 1 a) b))
  :rule-classes nil)

(defun bits-p (x)
  (if (consp x)
      (and (or (equal (car x) t) (equal (car x) nil)) (bits-p (cdr x)))
    (equal x nil)))

(defthm bits-p-is-true-listp
  (implies (bits-p x) (true-listp x)))

(defun digit (b) (if b 1 0))

(defthm bit-not-negative
  (<= 0 (digit b))
  :rule-classes :linear)

(defthm bit-at-most-1
  (<= (digit b) 1)
  :rule-classes :linear)

(defun nat-of (x)
  (if (consp x) (+ (digit (car x)) (* 2 (nat-of (cdr x)))) 0))

(defthm integerp-nat-of
  (integerp (nat-of x))
  :rule-classes :type-prescription)

(defthm nat-of-not-negative
  (<= 0 (nat-of x))
  :rule-classes :linear)

(defun power2 (n)
  (if (zp n) 1 (* 2 (power2 (- n 1)))))

(defthm integerp-power2
  (integerp (power2 n))
  :rule-classes :type-prescription)

(defthm power2-positive
  (< 0 (power2 n))
  :rule-classes :linear)

(defthm power2-of-next
  (implies (natp n) (equal (power2 (+ 1 n)) (* 2 (power2 n)))))

(defthm power2-of-sum
  (implies (and (natp m) (natp n))
           (equal (power2 (+ m n)) (* (power2 m) (power2 n))))
  :rule-classes nil
  :hints (("Goal" :induct (power2 m))))

(defthm natp-len
  (natp (len x)))

(in-theory (disable power2))

(defthm nat-of-below-power2
  (< (nat-of x) (power2 (len x)))
  :rule-classes :linear
  :hints (("Goal" :induct (len x))))

; Joining: the second stands above the first.
(defun app (x y)
  (if (consp x) (cons (car x) (app (cdr x) y)) y))

(defthm app-assoc
  (equal (app (app x y) z) (app x (app y z))))

(defthm len-app
  (equal (len (app x y)) (+ (len x) (len y))))

(defthm bits-p-app
  (implies (and (bits-p x) (bits-p y)) (bits-p (app x y))))

(defthm nat-of-app
  (equal (nat-of (app x y)) (+ (nat-of x) (* (power2 (len x)) (nat-of y))))
  :hints (("Goal" :induct (app x y))))

; All bits 0, all bits 1.
(defun zeros (n)
  (if (zp n) nil (cons nil (zeros (- n 1)))))

(defun ones (n)
  (if (zp n) nil (cons t (ones (- n 1)))))

(defthm bits-p-zeros
  (bits-p (zeros n)))

(defthm bits-p-ones
  (bits-p (ones n)))

(defthm len-zeros
  (implies (natp n) (equal (len (zeros n)) n)))

(defthm len-ones
  (implies (natp n) (equal (len (ones n)) n)))

(defthm nat-of-zeros
  (equal (nat-of (zeros n)) 0))

(defthm nat-of-ones
  (equal (nat-of (ones n)) (- (power2 n) 1))
  :hints (("Goal" :in-theory (enable power2))))

(defthm nat-of-padded
  (equal (nat-of (app x (zeros n))) (nat-of x)))

(defthm nat-of-moved-up
  (implies (natp n)
           (equal (nat-of (app (zeros n) x)) (* (power2 n) (nat-of x)))))

; Each bit the other way.
(defun flip (x)
  (if (consp x) (cons (not (car x)) (flip (cdr x))) nil))

(defthm bits-p-flip
  (bits-p (flip x)))

(defthm len-flip
  (equal (len (flip x)) (len x)))

(defthm flip-flip
  (implies (bits-p x) (equal (flip (flip x)) x)))

(defthm flip-app
  (equal (flip (app x y)) (app (flip x) (flip y))))

(defthm nat-of-flip
  (equal (nat-of (flip x)) (+ -1 (power2 (len x)) (- (nat-of x)))))

; A number is 0 where no bit is 1.
(defun no-bit (x)
  (if (consp x) (and (not (car x)) (no-bit (cdr x))) t))

(defthm no-bit-is-zero
  (iff (equal (nat-of x) 0) (no-bit x))
  :rule-classes nil)

(defthm no-bit-zeros
  (no-bit (zeros n)))

(defthm no-bit-is-zeros
  (implies (and (no-bit x) (bits-p x)) (equal (zeros (len x)) x)))

; The lowest bit and the rest are of the number alone.
(defthm one-half
  (implies (and (integerp m) (integerp n))
           (not (equal (+ 1 (* 2 m)) (* 2 n))))
  :rule-classes nil
  :hints (("Goal" :use ((:instance next-is-at-most (a m) (b n))))))

(defthm nat-of-bit-and-rest
  (implies (and (integerp m) (integerp n)
                (equal (+ (digit a) (* 2 m)) (+ (digit b) (* 2 n))))
           (and (iff a b) (equal m n)))
  :rule-classes nil
  :hints (("Goal" :use (one-half (:instance one-half (m n) (n m))))))

; Two of one length.
(defun alike (x y)
  (if (consp x) (and (consp y) (alike (cdr x) (cdr y))) (not (consp y))))

(defthm alike-self
  (alike x x))

(defthm alike-has-the-length
  (implies (alike x y) (equal (len y) (len x)))
  :rule-classes nil)

(defthm alike-by-length
  (implies (equal (len x) (len y)) (alike x y))
  :rule-classes nil
  :hints (("Goal" :induct (alike x y))))

(defthm alike-turned
  (equal (alike x y) (alike y x))
  :rule-classes nil)

(defthm alike-flip
  (equal (alike x (flip y)) (alike x y))
  :hints (("Goal" :induct (alike x y))))

(defthm alike-flip-left
  (equal (alike (flip x) y) (alike x y))
  :hints (("Goal" :induct (alike x y))))

(defthm alike-app
  (implies (alike x y) (equal (alike (app x u) (app y v)) (alike u v)))
  :hints (("Goal" :induct (alike x y))))
