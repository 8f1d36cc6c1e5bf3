; Sorting, 5 of 6: sorting of pairs by their keys: what has one key stays in its order.
(in-package "ACL2")

(include-book "sorting-lists")

(defun key (e) (car e))

(defun keys (x)
  (if (consp x) (cons (key (car x)) (keys (cdr x))) nil))

(defthm len-keys
  (equal (len (keys x)) (len x)))

(defthm true-listp-keys
  (true-listp (keys x)))

(defthm keys-app
  (equal (keys (app x y)) (app (keys x) (keys y))))

(defthm key-of-a-member
  (implies (mem e x) (mem (key e) (keys x))))

; What has the key k, in its order.
(defun with-key (k x)
  (if (consp x)
      (if (equal k (key (car x)))
          (cons (car x) (with-key k (cdr x)))
        (with-key k (cdr x)))
    nil))

(defthm true-listp-with-key
  (true-listp (with-key k x)))

(defthm with-key-app
  (equal (with-key k (app x y)) (app (with-key k x) (with-key k y))))

(defthm mem-with-key
  (equal (mem e (with-key k x)) (and (equal k (key e)) (mem e x))))

(defthm how-often-with-key
  (equal (how-often e (with-key k x)) (if (equal k (key e)) (how-often e x) 0)))

(defthm len-with-key
  (equal (len (with-key k x)) (how-often k (keys x))))

(defthm with-key-of-no-key
  (implies (not (mem k (keys x))) (equal (with-key k x) nil)))

(defthm with-key-twice
  (equal (with-key k (with-key k x)) (with-key k x))
  :hints (("Goal" :induct (with-key k x))))

; In order by the keys.
(defun keyed-order (x)
  (if (consp x)
      (and (at-least (key (car x)) (keys (cdr x))) (keyed-order (cdr x)))
    t))

(defun keyed-insert (e x)
  (if (consp x)
      (if (<= (key e) (key (car x)))
          (cons e x)
        (cons (car x) (keyed-insert e (cdr x))))
    (cons e nil)))

; That it gives a pair opens calls on it too early.
(in-theory (disable (:type-prescription keyed-insert)))

(defthm true-listp-keyed-insert
  (implies (true-listp x) (true-listp (keyed-insert e x))))

(defthm len-keyed-insert
  (equal (len (keyed-insert e x)) (+ 1 (len x))))

(defthm mem-keyed-insert
  (equal (mem a (keyed-insert e x)) (or (equal a e) (mem a x))))

(defthm how-often-keyed-insert
  (equal (how-often a (keyed-insert e x))
         (if (equal a e) (+ 1 (how-often a x)) (how-often a x))))

(defthm at-least-keys-keyed-insert
  (equal (at-least a (keys (keyed-insert e x)))
         (and (<= a (key e)) (at-least a (keys x)))))

(defthm keyed-order-keyed-insert
  (implies (keyed-order x) (keyed-order (keyed-insert e x)))
  :hints (("Goal" :induct (keyed-insert e x))))

(defthm integers-keys-keyed-insert
  (equal (integers (keys (keyed-insert e x)))
         (and (integerp (key e)) (integers (keys x)))))

; The new one comes before those of its key.
(defthm with-key-keyed-insert
  (implies (and (integers (keys x)) (integerp (key e)))
           (equal (with-key k (keyed-insert e x))
                  (if (equal k (key e)) (cons e (with-key k x)) (with-key k x)))))

; What was said of these is used, and not how they go.
(in-theory (disable (:definition keyed-insert)))

(defun keyed-sort (x)
  (if (consp x) (keyed-insert (car x) (keyed-sort (cdr x))) nil))

(defthm true-listp-keyed-sort
  (true-listp (keyed-sort x)))

(defthm len-keyed-sort
  (equal (len (keyed-sort x)) (len x)))

(defthm mem-keyed-sort
  (equal (mem a (keyed-sort x)) (mem a x)))

(defthm how-often-keyed-sort
  (equal (how-often a (keyed-sort x)) (how-often a x)))

(defthm keyed-order-keyed-sort
  (keyed-order (keyed-sort x)))

(defthm integers-keys-keyed-sort
  (equal (integers (keys (keyed-sort x))) (integers (keys x))))

(defthm keyed-sort-is-stable
  (implies (integers (keys x))
           (equal (with-key k (keyed-sort x)) (with-key k x))))

(defthm keyed-insert-below
  (implies (and (at-least (key e) (keys x)) (true-listp x))
           (equal (keyed-insert e x) (cons e x)))
  :hints (("Goal" :expand ((keyed-insert e x)) :in-theory (enable keyed-insert))))

(defthm at-least-keys-keyed-sort
  (equal (at-least a (keys (keyed-sort x))) (at-least a (keys x))))

(defthm keyed-sort-of-ordered
  (implies (and (keyed-order x) (true-listp x)) (equal (keyed-sort x) x)))

(defthm keyed-sort-twice
  (equal (keyed-sort (keyed-sort x)) (keyed-sort x)))
