; Association lists, 1 of 4: looking up, binding, unbinding, and the keys.
(in-package "ACL2")

; A list of pairs. What isn't a pair is passed over as one without key.
(defun alist-p (x)
  (if (consp x) (and (consp (car x)) (alist-p (cdr x))) (equal x nil)))

(defun app (x y)
  (if (consp x) (cons (car x) (app (cdr x) y)) y))

(defun mem (a x)
  (if (consp x) (or (equal a (car x)) (mem a (cdr x))) nil))

(defthm app-assoc
  (equal (app (app x y) z) (app x (app y z))))

(defthm app-nil
  (implies (true-listp x) (equal (app x nil) x)))

(defthm len-app
  (equal (len (app x y)) (+ (len x) (len y))))

(defthm mem-app
  (equal (mem a (app x y)) (or (mem a x) (mem a y))))

(defthm alist-p-app
  (implies (alist-p x) (equal (alist-p (app x y)) (alist-p y))))

(defthm alist-p-is-true-listp
  (implies (alist-p x) (true-listp x)))

; Its keys.
(defun keys (x)
  (if (consp x) (cons (car (car x)) (keys (cdr x))) nil))

(defthm true-listp-keys
  (true-listp (keys x)))

(defthm len-keys
  (equal (len (keys x)) (len x)))

(defthm keys-app
  (equal (keys (app x y)) (app (keys x) (keys y))))

(defun bound (k x)
  (if (consp x) (if (equal k (car (car x))) t (bound k (cdr x))) nil))

(defthm bound-is-mem-keys
  (equal (mem k (keys x)) (bound k x)))

(defthm bound-app
  (equal (bound k (app x y)) (or (bound k x) (bound k y))))

; The first pair of a key, and its value.
(defun pair-of (k x)
  (if (consp x)
      (if (equal k (car (car x))) (car x) (pair-of k (cdr x)))
    nil))

(defun value-of (k x)
  (if (consp x)
      (if (equal k (car (car x))) (cdr (car x)) (value-of k (cdr x)))
    nil))

(defthm value-of-by-pair-of
  (equal (cdr (pair-of k x)) (value-of k x)))

(defthm car-pair-of
  (implies (bound k x) (equal (car (pair-of k x)) k)))

(defthm pair-of-a-pair
  (implies (and (alist-p x) (bound k x)) (consp (pair-of k x))))

(defthm pair-of-no-key
  (implies (not (bound k x)) (equal (pair-of k x) nil)))

(defthm pair-of-a-member
  (implies (bound k x) (mem (pair-of k x) x)))

(defthm value-of-no-key
  (implies (not (bound k x)) (equal (value-of k x) nil)))

(defthm value-app
  (equal (value-of k (app x y)) (if (bound k x) (value-of k x) (value-of k y))))

(defthm pair-of-app
  (equal (pair-of k (app x y)) (if (bound k x) (pair-of k x) (pair-of k y))))

; Binding in the place of the first pair of the key, or at the end.
(defun bind (k v x)
  (if (consp x)
      (if (equal k (car (car x)))
          (cons (cons k v) (cdr x))
        (cons (car x) (bind k v (cdr x))))
    (cons (cons k v) nil)))

; That it gives a pair opens calls on it too early.
(in-theory (disable (:type-prescription bind)))

(defthm alist-p-bind
  (implies (alist-p x) (alist-p (bind k v x))))

(defthm value-bind
  (equal (value-of k (bind l v x)) (if (equal k l) v (value-of k x))))

(defthm bound-bind
  (equal (bound k (bind l v x)) (or (equal k l) (bound k x))))

(defthm len-bind
  (equal (len (bind k v x)) (if (bound k x) (len x) (+ 1 (len x)))))

(defthm bind-bind
  (equal (bind k v (bind k w x)) (bind k v x)))

(defthm bind-bind-of-bound
  (implies (and (not (equal k l)) (bound k x))
           (equal (bind k v (bind l w x)) (bind l w (bind k v x))))
  :rule-classes nil)

(defthm bind-of-its-value
  (implies (and (bound k x) (alist-p x)) (equal (bind k (value-of k x) x) x)))

(defthm keys-bind-of-bound
  (implies (bound k x) (equal (keys (bind k v x)) (keys x))))

(defthm keys-bind-of-new
  (implies (not (bound k x)) (equal (keys (bind k v x)) (app (keys x) (cons k nil)))))

(defthm bind-app-of-bound
  (implies (bound k x) (equal (bind k v (app x y)) (app (bind k v x) y))))

(defthm bind-app-of-new
  (implies (not (bound k x)) (equal (bind k v (app x y)) (app x (bind k v y)))))

; Unbinding: all pairs of the key go.
(defun unbind (k x)
  (if (consp x)
      (if (equal k (car (car x))) (unbind k (cdr x)) (cons (car x) (unbind k (cdr x))))
    nil))

(defthm true-listp-unbind
  (true-listp (unbind k x)))

(defthm alist-p-unbind
  (implies (alist-p x) (alist-p (unbind k x))))

(defthm bound-unbind
  (equal (bound k (unbind l x)) (and (not (equal k l)) (bound k x))))

(defthm value-unbind
  (equal (value-of k (unbind l x)) (if (equal k l) nil (value-of k x))))

(defthm unbind-of-new
  (implies (and (not (bound k x)) (alist-p x)) (equal (unbind k x) x)))

(defthm unbind-unbind
  (equal (unbind k (unbind k x)) (unbind k x))
  :hints (("Goal" :induct (unbind k x))))

(defthm unbind-turned
  (equal (unbind k (unbind l x)) (unbind l (unbind k x))))

(defthm len-unbind
  (<= (len (unbind k x)) (len x))
  :rule-classes :linear)

(defthm len-unbind-of-bound
  (implies (bound k x) (< (len (unbind k x)) (len x)))
  :rule-classes :linear)

(defthm len-unbind-of-new
  (implies (not (bound k x)) (equal (len (unbind k x)) (len x))))

(defthm unbind-app
  (equal (unbind k (app x y)) (app (unbind k x) (unbind k y))))

(defthm unbind-bind
  (equal (unbind k (bind k v x)) (unbind k x)))

(defthm unbind-bind-of-another
  (implies (not (equal k l))
           (equal (unbind k (bind l v x)) (bind l v (unbind k x)))))
