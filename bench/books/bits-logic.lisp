; Bit vectors, 2 of 4: and, or and exclusive or, bit by bit.
(in-package "ACL2")

(include-book "bits-base")

(defun differ (a b) (if a (not b) (if b t nil)))

(defun and-bits (x y)
  (if (consp x)
      (cons (if (car x) (if (car y) t nil) nil) (and-bits (cdr x) (cdr y)))
    nil))

(defun or-bits (x y)
  (if (consp x)
      (cons (if (car x) t (if (car y) t nil)) (or-bits (cdr x) (cdr y)))
    nil))

(defun xor-bits (x y)
  (if (consp x)
      (cons (differ (car x) (car y)) (xor-bits (cdr x) (cdr y)))
    nil))

(defthm len-and-bits (equal (len (and-bits x y)) (len x)))
(defthm len-or-bits (equal (len (or-bits x y)) (len x)))
(defthm len-xor-bits (equal (len (xor-bits x y)) (len x)))
(defthm bits-p-and-bits (bits-p (and-bits x y)))
(defthm bits-p-or-bits (bits-p (or-bits x y)))
(defthm bits-p-xor-bits (bits-p (xor-bits x y)))

(defthm and-bits-self (implies (bits-p x) (equal (and-bits x x) x)))
(defthm or-bits-self (implies (bits-p x) (equal (or-bits x x) x)))
(defthm xor-bits-self (equal (xor-bits x x) (zeros (len x))))

(defthm and-bits-turned
  (implies (alike x y) (equal (and-bits x y) (and-bits y x)))
  :rule-classes nil
  :hints (("Goal" :induct (alike x y))))

(defthm or-bits-turned
  (implies (alike x y) (equal (or-bits x y) (or-bits y x)))
  :rule-classes nil
  :hints (("Goal" :induct (alike x y))))

(defthm xor-bits-turned
  (implies (alike x y) (equal (xor-bits x y) (xor-bits y x)))
  :rule-classes nil
  :hints (("Goal" :induct (alike x y))))

(defun three (x y z)
  (if (consp x) (three (cdr x) (cdr y) (cdr z)) (list x y z)))

(defthm and-bits-assoc
  (equal (and-bits (and-bits x y) z) (and-bits x (and-bits y z)))
  :rule-classes nil
  :hints (("Goal" :induct (three x y z))))

(defthm flip-and-bits
  (implies (alike x y)
           (equal (flip (and-bits x y)) (or-bits (flip x) (flip y))))
  :hints (("Goal" :induct (alike x y))))

(defthm flip-or-bits
  (implies (alike x y)
           (equal (flip (or-bits x y)) (and-bits (flip x) (flip y))))
  :hints (("Goal" :induct (alike x y))))

(defthm flip-xor-bits
  (implies (alike x y)
           (equal (flip (xor-bits x y)) (xor-bits (flip x) y)))
  :hints (("Goal" :induct (alike x y))))

(defthm and-bits-flip
  (equal (and-bits x (flip x)) (zeros (len x))))

(defthm or-bits-flip
  (equal (or-bits x (flip x)) (ones (len x))))

(defthm and-bits-app
  (implies (alike x y)
           (equal (and-bits (app x u) (app y v)) (app (and-bits x y) (and-bits u v))))
  :hints (("Goal" :induct (alike x y))))

(defthm xor-bits-twice
  (implies (and (alike x y) (bits-p y))
           (equal (xor-bits x (xor-bits x y)) y))
  :hints (("Goal" :induct (alike x y))))

; As numbers.
(defthm nat-of-and-bits-at-most
  (<= (nat-of (and-bits x y)) (nat-of x))
  :rule-classes :linear
  :hints (("Goal" :induct (and-bits x y))))

(defthm nat-of-or-bits-at-least
  (<= (nat-of x) (nat-of (or-bits x y)))
  :rule-classes :linear
  :hints (("Goal" :induct (and-bits x y))))

(defthm nat-of-or-and-and
  (implies (alike x y)
           (equal (+ (nat-of (or-bits x y)) (nat-of (and-bits x y)))
                  (+ (nat-of x) (nat-of y))))
  :rule-classes nil
  :hints (("Goal" :induct (alike x y))))

(defthm nat-of-xor-and-and
  (implies (alike x y)
           (equal (+ (nat-of (xor-bits x y)) (* 2 (nat-of (and-bits x y))))
                  (+ (nat-of x) (nat-of y))))
  :rule-classes nil
  :hints (("Goal" :induct (alike x y))))

; The same number in the same length is the same vector.
(defun same-bits (x y)
  (if (consp x)
      (and (consp y) (iff (car x) (car y)) (same-bits (cdr x) (cdr y)))
    (not (consp y))))

(defthm same-bits-is-equal
  (implies (and (bits-p x) (bits-p y) (same-bits x y)) (equal x y))
  :rule-classes nil
  :hints (("Goal" :induct (same-bits x y))))

(defthm one-step-of-same-bits
  (implies (and (consp x) (consp y) (equal (nat-of x) (nat-of y)))
           (and (iff (car x) (car y)) (equal (nat-of (cdr x)) (nat-of (cdr y)))))
  :rule-classes nil
  :hints (("Goal" :use ((:instance nat-of-bit-and-rest
                                   (a (car x)) (b (car y))
                                   (m (nat-of (cdr x))) (n (nat-of (cdr y)))))
                  :expand ((nat-of x) (nat-of y)) :in-theory (disable digit))))

(defthm nat-of-gives-same-bits
  (implies (and (alike x y) (equal (nat-of x) (nat-of y))) (same-bits x y))
  :rule-classes nil
  :hints (("Goal" :induct (alike x y))))

(defthm nat-of-gives-the-bits
  (implies (and (alike x y) (bits-p x) (bits-p y) (equal (nat-of x) (nat-of y)))
           (equal x y))
  :rule-classes nil
  :hints (("Goal" :use (nat-of-gives-same-bits same-bits-is-equal)
                  :in-theory (disable alike bits-p nat-of same-bits))))
