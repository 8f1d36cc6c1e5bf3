; Bit vectors, 3 of 4: the full adder, and the adder that hands its carry on.
(in-package "ACL2")

(include-book "bits-logic")

(defun sum-bit (a b c) (differ a (differ b c)))

(defun carry-bit (a b c)
  (if a (if b t (if c t nil)) (if b (if c t nil) nil)))

(defthm full-adder
  (equal (+ (digit (sum-bit a b c)) (* 2 (digit (carry-bit a b c))))
         (+ (digit a) (digit b) (digit c)))
  :rule-classes :linear)

(defun half-carry (a c) (if a (if c t nil) nil))

(defthm half-adder
  (equal (+ (digit (differ a c)) (* 2 (digit (half-carry a c)))) (+ (digit a) (digit c)))
  :rule-classes :linear)

(defthm sum-bit-is-a-bit
  (implies (not (equal (sum-bit a b c) t)) (equal (sum-bit a b c) nil))
  :rule-classes nil)

(defthm sum-bit-turned
  (equal (sum-bit a b c) (sum-bit b a c)))

(defthm carry-bit-turned
  (equal (carry-bit a b c) (carry-bit b a c)))

(defthm bit-of-true
  (implies b (equal (digit b) 1)))

(defthm bit-of-false
  (implies (not b) (equal (digit b) 0)))

(defun bool (b) (or (equal b t) (equal b nil)))

(in-theory (disable digit differ half-carry sum-bit carry-bit))

; The sum of two vectors of one length and a carry has one bit more.
(defun add-bits (x y c)
  (if (consp x)
      (cons (sum-bit (car x) (car y) c)
            (add-bits (cdr x) (cdr y) (carry-bit (car x) (car y) c)))
    (cons (if c t nil) nil)))

; That it gives a pair opens calls on it too early.
(in-theory (disable (:type-prescription add-bits)))

(defthm bits-p-add-bits
  (bits-p (add-bits x y c))
  :hints (("Goal" :induct (add-bits x y c))))

(defthm len-add-bits
  (equal (len (add-bits x y c)) (+ 1 (len x)))
  :hints (("Goal" :induct (add-bits x y c))))

(defthm nat-of-add-bits
  (implies (alike x y)
           (equal (nat-of (add-bits x y c)) (+ (nat-of x) (nat-of y) (digit c))))
  :hints (("Goal" :induct (add-bits x y c))))

; The carry alone, and the sum without it.
(defun carry-out (x y c)
  (if (consp x)
      (carry-out (cdr x) (cdr y) (carry-bit (car x) (car y) c))
    (if c t nil)))

(defun add-mod (x y c)
  (if (consp x)
      (cons (sum-bit (car x) (car y) c)
            (add-mod (cdr x) (cdr y) (carry-bit (car x) (car y) c)))
    nil))

(defthm bits-p-add-mod
  (bits-p (add-mod x y c))
  :hints (("Goal" :induct (add-mod x y c))))

(defthm len-add-mod
  (equal (len (add-mod x y c)) (len x))
  :hints (("Goal" :induct (add-mod x y c))))

(defthm add-bits-is-mod-and-carry
  (equal (add-bits x y c) (app (add-mod x y c) (cons (carry-out x y c) nil)))
  :rule-classes nil
  :hints (("Goal" :induct (add-bits x y c))))

(defthm nat-of-add-mod
  (implies (alike x y)
           (equal (+ (nat-of (add-mod x y c))
                     (* (power2 (len x)) (digit (carry-out x y c))))
                  (+ (nat-of x) (nat-of y) (digit c))))
  :rule-classes nil
  :hints (("Goal" :use ((:instance add-bits-is-mod-and-carry)
                        (:instance nat-of-add-bits))
                  :in-theory (disable nat-of-add-bits add-bits add-mod carry-out))))

; In either order.
(defthm add-bits-turned
  (implies (alike x y)
           (equal (add-bits x y c) (add-bits y x c)))
  :rule-classes nil
  :hints (("Goal" :induct (add-bits x y c))))

; Two parts: the carry goes from the lower to the upper, so the upper part may be worked out for both.
(defthm carry-out-app
  (implies (and (alike x y) (bool c))
           (equal (carry-out (app x u) (app y v) c)
                  (carry-out u v (carry-out x y c))))
  :hints (("Goal" :induct (add-mod x y c))))

(defthm add-mod-app
  (implies (and (alike x y) (bool c))
           (equal (add-mod (app x u) (app y v) c)
                  (app (add-mod x y c) (add-mod u v (carry-out x y c)))))
  :hints (("Goal" :induct (add-mod x y c))))

(defun carry-select (x y u v c)
  (app (add-mod x y c)
       (if (carry-out x y c) (add-bits u v t) (add-bits u v nil))))

(defthm add-bits-app
  (implies (and (alike x y) (bool c))
           (equal (add-bits (app x u) (app y v) c)
                  (app (add-mod x y c) (add-bits u v (carry-out x y c)))))
  :hints (("Goal" :induct (add-mod x y c))))

(defthm carry-select-is-add-bits
  (implies (and (alike x y) (bool c))
           (equal (carry-select x y u v c) (add-bits (app x u) (app y v) c)))
  :hints (("Goal" :in-theory (disable add-bits add-mod carry-out))))

; More carried in is no less carried out.
(defun two-carries (x y b c)
  (if (consp x)
      (two-carries (cdr x) (cdr y)
                   (carry-bit (car x) (car y) b) (carry-bit (car x) (car y) c))
    (list y b c)))

(defthm carry-out-of-more
  (implies (and (carry-out x y b) (or (not b) c)) (carry-out x y c))
  :rule-classes nil
  :hints (("Goal" :induct (two-carries x y b c) :in-theory (enable carry-bit))))

; One more: a carry alone.
(defun add-one (x c)
  (if (consp x)
      (cons (differ (car x) c) (add-one (cdr x) (half-carry (car x) c)))
    (cons (if c t nil) nil)))

; That it gives a pair opens calls on it too early.
(in-theory (disable (:type-prescription add-one)))

(defthm nat-of-add-one
  (equal (nat-of (add-one x c)) (+ (nat-of x) (digit c)))
  :hints (("Goal" :induct (add-one x c))))

(defthm len-add-one
  (equal (len (add-one x c)) (+ 1 (len x)))
  :hints (("Goal" :induct (add-one x c))))

(defthm bits-p-add-one
  (bits-p (add-one x c))
  :hints (("Goal" :induct (add-one x c))))

; Vectors of any two lengths.
(defun add-any (x y c)
  (if (consp x)
      (if (consp y)
          (cons (sum-bit (car x) (car y) c)
                (add-any (cdr x) (cdr y) (carry-bit (car x) (car y) c)))
        (add-one x c))
    (add-one y c)))

; That it gives a pair opens calls on it too early.
(in-theory (disable (:type-prescription add-any)))

(defthm nat-of-add-any
  (equal (nat-of (add-any x y c)) (+ (nat-of x) (nat-of y) (digit c)))
  :hints (("Goal" :induct (add-any x y c) :in-theory (disable add-one))))

(defthm bits-p-add-any
  (bits-p (add-any x y c))
  :hints (("Goal" :induct (add-any x y c) :in-theory (disable add-one))))

(defthm len-add-any-left
  (< (len x) (len (add-any x y c)))
  :rule-classes :linear
  :hints (("Goal" :induct (add-any x y c) :in-theory (disable add-one))))
