; Association lists, 4 of 4: the values, functions of values, and the other way round.
(in-package "ACL2")

(include-book "alists-update")

(defun vals (x)
  (if (consp x) (cons (cdr (car x)) (vals (cdr x))) nil))

(defthm len-vals
  (equal (len (vals x)) (len x)))

(defthm vals-app
  (equal (vals (app x y)) (app (vals x) (vals y))))

(defthm mem-value-vals
  (implies (bound k x) (mem (value-of k x) (vals x))))

(defthm mem-vals-bind
  (implies (mem v (vals (bind k w x))) (or (equal v w) (mem v (vals x))))
  :rule-classes nil)

(defthm mem-vals-unbind
  (implies (mem v (vals (unbind k x))) (mem v (vals x))))

; From a list of keys and one of values.
(defun paired (ks vs)
  (if (consp ks) (cons (cons (car ks) (car vs)) (paired (cdr ks) (cdr vs))) nil))

(defthm alist-p-paired
  (alist-p (paired ks vs)))

(defthm keys-paired
  (implies (true-listp ks) (equal (keys (paired ks vs)) ks))
  :hints (("Goal" :induct (paired ks vs))))

(defthm len-paired
  (equal (len (paired ks vs)) (len ks)))

(defthm bound-paired
  (equal (bound k (paired ks vs)) (mem k ks)))

(defthm vals-paired
  (implies (and (equal (len ks) (len vs)) (true-listp vs))
           (equal (vals (paired ks vs)) vs))
  :hints (("Goal" :induct (paired ks vs))))

(defthm paired-keys-vals
  (implies (alist-p x) (equal (paired (keys x) (vals x)) x)))

(defthm once-paired
  (equal (once (paired ks vs)) (no-twice ks)))

; One function of all values: here a number is added.
(defun add-to-all (n x)
  (if (consp x)
      (cons (cons (car (car x)) (+ n (cdr (car x)))) (add-to-all n (cdr x)))
    nil))

(defthm keys-add-to-all
  (equal (keys (add-to-all n x)) (keys x)))

(defthm bound-add-to-all
  (equal (bound k (add-to-all n x)) (bound k x)))

(defthm value-add-to-all
  (implies (bound k x) (equal (value-of k (add-to-all n x)) (+ n (value-of k x)))))

(defthm once-add-to-all
  (equal (once (add-to-all n x)) (once x)))

(defthm add-to-all-app
  (equal (add-to-all n (app x y)) (app (add-to-all n x) (add-to-all n y))))

(defthm add-to-all-bind
  (equal (add-to-all n (bind k v x)) (bind k (+ n v) (add-to-all n x))))

(defthm add-to-all-unbind
  (equal (add-to-all n (unbind k x)) (unbind k (add-to-all n x))))

(defthm add-to-all-twice
  (equal (add-to-all m (add-to-all n x)) (add-to-all (+ m n) x)))

(defthm add-to-all-restrict
  (equal (add-to-all n (restrict ks x)) (restrict ks (add-to-all n x))))

; Counting by keys: how often each is in a list.
(defun add-one-to (k x)
  (bind k (+ 1 (ifix (value-of k x))) x))

(defun tally (l x)
  (if (consp l) (add-one-to (car l) (tally (cdr l) x)) x))

(defun how-often (a x)
  (if (consp x)
      (if (equal a (car x)) (+ 1 (how-often a (cdr x))) (how-often a (cdr x)))
    0))

(defthm integerp-how-often
  (integerp (how-often a x))
  :rule-classes :type-prescription)

(defthm how-often-not-negative
  (<= 0 (how-often a x))
  :rule-classes :linear)

(defthm how-often-app
  (equal (how-often a (app x y)) (+ (how-often a x) (how-often a y))))

(defthm how-often-of-no-member
  (implies (not (mem a x)) (equal (how-often a x) 0)))

(defthm bound-tally
  (equal (bound k (tally l x)) (or (mem k l) (bound k x))))

(defthm value-tally
  (equal (ifix (value-of k (tally l x))) (+ (how-often k l) (ifix (value-of k x))))
  :rule-classes nil
  :hints (("Goal" :induct (tally l x))))

(defthm value-tally-of-no-member
  (implies (not (mem k l)) (equal (value-of k (tally l x)) (value-of k x)))
  :hints (("Goal" :induct (tally l x))))

(defthm once-tally
  (implies (once x) (once (tally l x)))
  :hints (("Goal" :induct (tally l x))))

(defthm tally-app
  (equal (tally (app l m) x) (tally l (tally m x)))
  :hints (("Goal" :induct (app l m) :in-theory (disable add-one-to))))

; The other way round: keys and values exchanged.
(defun turned (x)
  (if (consp x)
      (cons (cons (cdr (car x)) (car (car x))) (turned (cdr x)))
    nil))

(defthm keys-turned
  (equal (keys (turned x)) (vals x)))

(defthm vals-turned
  (equal (vals (turned x)) (keys x)))

(defthm turned-turned
  (implies (alist-p x) (equal (turned (turned x)) x)))

(defthm turned-app
  (equal (turned (app x y)) (app (turned x) (turned y))))

(defthm bound-turned
  (equal (bound v (turned x)) (mem v (vals x))))

(defthm once-turned
  (equal (once (turned x)) (no-twice (vals x))))

(defthm mem-turned
  (implies (alist-p x)
           (equal (mem (cons v k) (turned x)) (mem (cons k v) x))))
