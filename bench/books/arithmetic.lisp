; Arithmetic: sums, products and powers by recursion, and linear facts.
(in-package "ACL2")

; Linear arithmetic alone.
(defthm between
  (implies (and (integerp x) (integerp y) (< x y)) (<= (+ 1 x) y))
  :rule-classes nil)

(defthm four-inequalities
  (implies (and (< a b) (<= b c) (< c d) (<= d e)) (< a e))
  :rule-classes nil)

(defthm sums-of-inequalities
  (implies (and (<= a b) (<= c d) (< e f)) (< (+ a c e) (+ b d f)))
  :rule-classes nil)

(defthm three-times
  (implies (and (<= (+ x x x) (+ y y y)) (integerp x) (integerp y)) (<= x y))
  :rule-classes nil)

(defthm max-below
  (implies (and (<= x z) (<= y z)) (<= (max x y) z))
  :rule-classes nil)

(defthm abs-not-negative
  (<= 0 (abs x))
  :rule-classes nil)

; Addition by recursion.
(defun plus (x y)
  (if (zp x) (nfix y) (+ 1 (plus (- x 1) y))))

(defthm natp-plus
  (natp (plus x y)))

(defthm plus-is-sum
  (equal (plus x y) (+ (nfix x) (nfix y))))

; ACL2 begins without this rule of products, and acl2p with it.
(defthm swap-factors
  (equal (* x (* y z)) (* y (* x z)))
  :hints (("Goal" :use ((:instance associativity-of-*)
                        (:instance associativity-of-* (x y) (y x)))
                  :in-theory (disable associativity-of-*))))

; A product is taken apart at its right factor alone.
(defthm product-of-sum
  (equal (* (+ x y) z) (+ (* x z) (* y z)))
  :hints (("Goal" :use ((:instance commutativity-of-* (x (+ x y)) (y z))))))

; Multiplication by recursion.
(defun times (x y)
  (if (zp x) 0 (+ (nfix y) (times (- x 1) y))))

(defthm times-zero-right
  (equal (times x 0) 0))

(defthm times-one
  (equal (times 1 y) (nfix y)))

(defthm times-of-next
  (implies (and (natp x) (natp y))
           (equal (times x (+ 1 y)) (+ x (times x y)))))

(defthm times-is-product
  (implies (and (natp x) (natp y)) (equal (times x y) (* x y))))

(defthm times-commutes
  (implies (and (natp x) (natp y))
           (equal (times x y) (times y x)))
  :rule-classes nil)

; Powers.
(defun power (b e)
  (if (zp e) 1 (* b (power b (- e 1)))))

(defthm integerp-power
  (implies (integerp b) (integerp (power b e))))

(defthm power-of-sum
  (implies (and (integerp b) (natp e) (natp f))
           (equal (power b (+ e f)) (* (power b e) (power b f)))))

(defthm power-of-one
  (equal (power 1 e) 1))

(defthm power-of-zero
  (implies (not (zp e)) (equal (power 0 e) 0)))

; Sums over the numbers up to n.
(defun sum-to (n)
  (if (zp n) 0 (+ n (sum-to (- n 1)))))

(defthm twice-sum-to
  (implies (natp n)
           (equal (* 2 (sum-to n)) (* n (+ 1 n)))))

(defun sum-of-odds (n)
  (if (zp n) 0 (+ (- (* 2 n) 1) (sum-of-odds (- n 1)))))

(defthm sum-of-odds-is-square
  (implies (natp n) (equal (sum-of-odds n) (* n n))))

(defthm sum-to-not-below
  (implies (natp n) (<= n (sum-to n)))
  :rule-classes :linear)

; Even and odd.
(defun even (n)
  (if (zp n) t (if (equal n 1) nil (even (- n 2)))))

(defthm even-of-next
  (implies (natp n) (equal (even (+ 1 n)) (not (even n))))
  :hints (("Goal" :induct (even n))))

; Two constants of one sum: ACL2 adds them by itself, and acl2p by these rules.
(defthm plus-and-minus-one
  (implies (integerp x) (equal (+ -1 (+ 1 x)) x)))

(defthm minus-one-twice
  (equal (+ -1 (+ -1 x)) (+ -2 x)))

(defthm minus-two-and-one
  (equal (+ -2 (+ 1 x)) (+ -1 x)))

; An induction from n to n - 1, for what EVEN and HALF say of a sum of two n.
(defun down (n)
  (if (zp n) n (down (- n 1))))

(defthm even-of-double
  (implies (natp n) (even (+ n n)))
  :hints (("Goal" :induct (down n))))

(defthm even-of-sum
  (implies (and (natp m) (natp n) (even m))
           (equal (even (+ m n)) (even n))))

; Half of a number, rounded down.
(defun half (n)
  (if (zp n) 0 (if (equal n 1) 0 (+ 1 (half (- n 2))))))

(defthm half-of-double
  (implies (natp n) (equal (half (+ n n)) n))
  :hints (("Goal" :induct (down n))))

(defthm half-of-even
  (implies (and (natp n) (even n)) (equal (+ (half n) (half n)) n))
  :rule-classes :linear
  :hints (("Goal" :induct (half n))))
