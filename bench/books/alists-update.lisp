; Association lists, 3 of 4: many bindings at a time, and keeping or dropping a list of keys.
(in-package "ACL2")

(include-book "alists-keys")

; The bindings of u, the first of a key last, so that it stays.
(defun update (u x)
  (if (consp u)
      (bind (car (car u)) (cdr (car u)) (update (cdr u) x))
    x))

(defthm alist-p-update
  (implies (alist-p x) (alist-p (update u x)))
  :hints (("Goal" :induct (update u x))))

(defthm bound-update
  (equal (bound k (update u x)) (or (bound k u) (bound k x))))

(defthm value-update
  (equal (value-of k (update u x)) (if (bound k u) (value-of k u) (value-of k x))))

(defthm once-update
  (implies (once x) (once (update u x)))
  :hints (("Goal" :induct (update u x))))

(defthm update-app
  (equal (update (app u v) x) (update u (update v x))))

(defthm same-of-update
  (same-of ks (update u x) (app u x))
  :hints (("Goal" :induct (len ks))))

(defthm same-of-both-updated
  (implies (same-of ks x y) (same-of ks (update u x) (update u y)))
  :hints (("Goal" :induct (len ks))))

(defthm update-bind-of-bound
  (implies (bound k u) (equal (value-of l (update u (bind k v x))) (value-of l (update u x)))))

(defthm len-update
  (<= (len (update u x)) (+ (len u) (len x)))
  :rule-classes :linear)

(defthm len-update-not-less
  (<= (len x) (len (update u x)))
  :rule-classes :linear)

; The keys of one list only, and without them.
(defun restrict (ks x)
  (if (consp x)
      (if (mem (car (car x)) ks)
          (cons (car x) (restrict ks (cdr x)))
        (restrict ks (cdr x)))
    nil))

(defun drop-keys (ks x)
  (if (consp x)
      (if (mem (car (car x)) ks)
          (drop-keys ks (cdr x))
        (cons (car x) (drop-keys ks (cdr x))))
    nil))

(defthm bound-restrict
  (equal (bound k (restrict ks x)) (and (mem k ks) (bound k x))))

(defthm value-restrict
  (equal (value-of k (restrict ks x)) (if (mem k ks) (value-of k x) nil)))

(defthm bound-drop-keys
  (equal (bound k (drop-keys ks x)) (and (not (mem k ks)) (bound k x))))

(defthm value-drop-keys
  (equal (value-of k (drop-keys ks x)) (if (mem k ks) nil (value-of k x))))

(defthm once-restrict
  (implies (once x) (once (restrict ks x))))

(defthm once-drop-keys
  (implies (once x) (once (drop-keys ks x))))

(defthm alist-p-restrict
  (implies (alist-p x) (alist-p (restrict ks x))))

(defthm alist-p-drop-keys
  (implies (alist-p x) (alist-p (drop-keys ks x))))

(defthm restrict-restrict
  (equal (restrict ks (restrict ks x)) (restrict ks x))
  :hints (("Goal" :induct (restrict ks x))))

(defthm drop-keys-drop-keys
  (equal (drop-keys ks (drop-keys ks x)) (drop-keys ks x))
  :hints (("Goal" :induct (drop-keys ks x))))

(defthm restrict-drop-keys
  (equal (restrict ks (drop-keys ks x)) nil))

(defthm drop-keys-restrict
  (equal (drop-keys ks (restrict ks x)) nil))

(defthm restrict-turned
  (equal (restrict ks (restrict ls x)) (restrict ls (restrict ks x))))

(defthm restrict-app
  (equal (restrict ks (app x y)) (app (restrict ks x) (restrict ks y))))

(defthm drop-keys-app
  (equal (drop-keys ks (app x y)) (app (drop-keys ks x) (drop-keys ks y))))

(defthm drop-keys-of-one
  (equal (drop-keys (cons k nil) x) (unbind k x)))

(defthm drop-keys-of-more
  (equal (drop-keys (cons k ks) x) (unbind k (drop-keys ks x)))
  :rule-classes nil)

(defthm unbind-restrict
  (equal (unbind k (restrict ks x)) (restrict ks (unbind k x))))

(defthm len-of-both-parts
  (equal (+ (len (restrict ks x)) (len (drop-keys ks x))) (len x))
  :rule-classes :linear)

(defthm same-of-both-parts
  (implies (alist-p x)
           (same-of ls (app (restrict ks x) (drop-keys ks x)) x))
  :hints (("Goal" :induct (len ls))))

(defun all-in (ks ls)
  (if (consp ks) (and (mem (car ks) ls) (all-in (cdr ks) ls)) t))

(defthm restrict-of-all-keys
  (implies (and (alist-p x) (all-in (keys x) ks)) (equal (restrict ks x) x)))

(defthm drop-keys-of-all-keys
  (implies (all-in (keys x) ks) (equal (drop-keys ks x) nil)))
