; A small machine, 1 of 4: lists of instructions, and the memory.
(in-package "ACL2")

(defun app (x y)
  (if (consp x) (cons (car x) (app (cdr x) y)) y))

(defthm app-assoc
  (equal (app (app x y) z) (app x (app y z))))

(defthm app-nil
  (implies (true-listp x) (equal (app x nil) x)))

(defthm true-listp-app
  (implies (true-listp y) (true-listp (app x y))))

(defthm len-app
  (equal (len (app x y)) (+ (len x) (len y))))

(defthm natp-len
  (natp (len x)))

; What is behind the first n.
(defun behind (n x)
  (if (zp n) x (behind (- n 1) (cdr x))))

(defthm behind-the-first-part
  (equal (behind (len x) (app x y)) y)
  :hints (("Goal" :induct (app x y))))

(defthm len-behind
  (<= (len (behind n x)) (len x))
  :rule-classes :linear
  :hints (("Goal" :induct (behind n x))))

(defthm behind-of-none
  (equal (behind 0 x) x))

(defthm behind-of-more
  (implies (natp n) (equal (behind (+ 1 n) (cons a x)) (behind n x))))

(defthm behind-part-and-one
  (equal (behind (+ 1 (len x)) (app x (cons a y))) y)
  :hints (("Goal" :induct (app x y))))

(in-theory (disable behind))

; The memory: what each variable has; 0 where nothing was stored.
(defun fetch (v m)
  (if (consp m)
      (if (equal v (car (car m))) (ifix (cdr (car m))) (fetch v (cdr m)))
    0))

(defthm integerp-fetch
  (integerp (fetch v m))
  :rule-classes :type-prescription)

(defun store (v k m)
  (if (consp m)
      (if (equal v (car (car m)))
          (cons (cons v k) (cdr m))
        (cons (car m) (store v k (cdr m))))
    (cons (cons v k) nil)))

; That it gives a pair opens calls on it too early.
(in-theory (disable (:type-prescription store)))

(defthm fetch-store
  (equal (fetch v (store w k m)) (if (equal v w) (ifix k) (fetch v m))))

(defthm store-store
  (equal (store v k (store v l m)) (store v k m)))

(defun holds (v m)
  (if (consp m) (if (equal v (car (car m))) t (holds v (cdr m))) nil))

(defthm holds-store
  (equal (holds v (store w k m)) (or (equal v w) (holds v m))))

(defthm fetch-of-nothing
  (implies (not (holds v m)) (equal (fetch v m) 0)))

(defthm len-store
  (equal (len (store v k m)) (if (holds v m) (len m) (+ 1 (len m)))))

(defthm store-turned
  (implies (and (not (equal v w)) (holds v m))
           (equal (store v k (store w l m)) (store w l (store v k m))))
  :rule-classes nil)

; Two memories with the same values of the variables in a list.
(defun same-of (vs m n)
  (if (consp vs)
      (and (equal (fetch (car vs) m) (fetch (car vs) n)) (same-of (cdr vs) m n))
    t))

(defun mem (a x)
  (if (consp x) (or (equal a (car x)) (mem a (cdr x))) nil))

(defthm mem-app
  (equal (mem a (app x y)) (or (mem a x) (mem a y))))

(defthm same-of-self
  (same-of vs m m))

(defthm same-of-app
  (equal (same-of (app v w) m n) (and (same-of v m n) (same-of w m n))))

(defthm same-of-store
  (implies (same-of vs m n) (same-of vs (store v k m) (store v k n)))
  :hints (("Goal" :induct (len vs))))

(defthm same-of-store-of-another
  (implies (not (mem v vs)) (equal (same-of vs (store v k m) n) (same-of vs m n)))
  :hints (("Goal" :induct (len vs))))

(defthm same-of-a-variable
  (implies (and (same-of vs m n) (mem v vs)) (equal (fetch v m) (fetch v n)))
  :rule-classes nil)

(defthm same-of-turned
  (equal (same-of vs m n) (same-of vs n m))
  :rule-classes nil)

(defthm same-of-chained
  (implies (and (same-of vs l m) (same-of vs m n)) (same-of vs l n))
  :rule-classes nil
  :hints (("Goal" :induct (len vs))))

(defthm same-of-stored-twice
  (implies (not (equal v w))
           (same-of vs (store v k (store w l m)) (store w l (store v k m))))
  :rule-classes nil
  :hints (("Goal" :induct (len vs))))
