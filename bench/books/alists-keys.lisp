; Association lists, 2 of 4: those with each key once, and those that say the same.
(in-package "ACL2")

(include-book "alists-base")

; Each key once.
(defun once (x)
  (if (consp x) (and (not (bound (car (car x)) (cdr x))) (once (cdr x))) t))

(defthm once-bind
  (implies (once x) (once (bind k v x))))

(defthm once-unbind
  (implies (once x) (once (unbind k x))))

(defthm unbind-cdr-of-once
  (implies (and (once x) (consp x) (alist-p x))
           (equal (unbind (car (car x)) x) (cdr x))))

(defthm len-unbind-of-once
  (implies (and (once x) (bound k x)) (equal (len (unbind k x)) (+ -1 (len x)))))

; No two of one list are the same.
(defun no-twice (x)
  (if (consp x) (and (not (mem (car x) (cdr x))) (no-twice (cdr x))) t))

(defthm no-twice-keys
  (equal (no-twice (keys x)) (once x)))

(defun apart (x y)
  (if (consp x) (and (not (bound (car (car x)) y)) (apart (cdr x) y)) t))

(defthm once-app
  (equal (once (app x y)) (and (once x) (once y) (apart x y))))

(defthm apart-app
  (equal (apart (app x y) z) (and (apart x z) (apart y z))))

(defthm apart-of-bound
  (implies (and (apart x y) (bound k x)) (not (bound k y))))

(defthm apart-nil
  (implies (not (consp y)) (apart x y)))

(defthm apart-bind
  (equal (apart x (bind k v y)) (and (not (bound k x)) (apart x y))))

(defthm apart-unbind
  (implies (apart x y) (apart x (unbind k y))))

(defthm apart-of-itself-unbound
  (implies (apart x y) (apart (unbind k x) y)))

; Tidied: what a first pair of its key hides goes.
(defun tidy (x)
  (if (consp x)
      (cons (car x) (unbind (car (car x)) (tidy (cdr x))))
    nil))

(defthm bound-tidy
  (equal (bound k (tidy x)) (bound k x)))

(defthm value-tidy
  (equal (value-of k (tidy x)) (value-of k x)))

(defthm once-tidy
  (once (tidy x)))

(defthm alist-p-tidy
  (implies (alist-p x) (alist-p (tidy x))))

(defthm len-tidy
  (<= (len (tidy x)) (len x))
  :rule-classes nil)

(defthm tidy-of-once
  (implies (and (once x) (alist-p x)) (equal (tidy x) x)))

(defthm tidy-tidy
  (implies (alist-p x) (equal (tidy (tidy x)) (tidy x))))

(defthm unbind-tidy
  (implies (alist-p x) (equal (tidy (unbind k x)) (unbind k (tidy x)))))

; Two that say the same of the keys in a list.
(defun same-of (ks x y)
  (if (consp ks)
      (and (equal (bound (car ks) x) (bound (car ks) y))
           (equal (value-of (car ks) x) (value-of (car ks) y))
           (same-of (cdr ks) x y))
    t))

(defthm same-of-self
  (same-of ks x x))

(defthm same-of-turned
  (equal (same-of ks y x) (same-of ks x y))
  :rule-classes nil)

(defthm same-of-chained
  (implies (and (same-of ks x y) (same-of ks y z)) (same-of ks x z))
  :rule-classes nil
  :hints (("Goal" :induct (len ks))))

(defthm same-of-app
  (equal (same-of (app ks ls) x y) (and (same-of ks x y) (same-of ls x y))))

(defthm same-of-a-key
  (implies (and (same-of ks x y) (mem k ks))
           (and (equal (bound k x) (bound k y)) (equal (value-of k x) (value-of k y))))
  :rule-classes nil)

(defthm same-of-bind
  (implies (same-of ks x y) (same-of ks (bind k v x) (bind k v y)))
  :hints (("Goal" :induct (len ks))))

(defthm same-of-unbind
  (implies (same-of ks x y) (same-of ks (unbind k x) (unbind k y)))
  :hints (("Goal" :induct (len ks))))

(defthm same-of-joined
  (implies (and (same-of ks x y) (same-of ks v w))
           (same-of ks (app x v) (app y w)))
  :hints (("Goal" :induct (len ks))))

(defthm same-of-tidy
  (same-of ks (tidy x) x)
  :hints (("Goal" :induct (len ks))))

(defthm same-of-bind-and-cons
  (same-of ks (bind k v x) (cons (cons k v) x))
  :hints (("Goal" :induct (len ks))))
