; Merge sort: its parts, that it ends, and that what it gives is a list.
(in-package "ACL2")

(defun how-often (a x)
  (if (consp x) (if (equal a (car x)) (+ 1 (how-often a (cdr x))) (how-often a (cdr x))) 0))

; Each second element, from the first on, or from the second on.
(defun part (x now)
  (if (consp x)
      (if now (cons (car x) (part (cdr x) nil)) (part (cdr x) t))
    nil))

(defun merge2 (x y)
  (declare (xargs :measure (+ (len x) (len y))))
  (if (consp x)
      (if (consp y)
          (if (<= (car x) (car y))
              (cons (car x) (merge2 (cdr x) y))
            (cons (car y) (merge2 x (cdr y))))
        x)
    y))

(defthm len-part
  (<= (len (part x now)) (len x))
  :rule-classes :linear
  :hints (("Goal" :induct (part x now))))

(defun merge-sort (x)
  (declare (xargs :measure (len x)))
  (if (consp x)
      (if (consp (cdr x))
          (merge2 (merge-sort (part x t)) (merge-sort (part x nil)))
        (cons (car x) nil))
    nil))

(defthm true-listp-merge2
  (implies (and (true-listp x) (true-listp y))
           (true-listp (merge2 x y)))
  :hints (("Goal" :induct (merge2 x y))))

(defthm len-merge2
  (equal (len (merge2 x y)) (+ (len x) (len y)))
  :hints (("Goal" :induct (merge2 x y))))

(defthm len-parts
  (equal (+ (len (part x t)) (len (part x nil))) (len x))
  :rule-classes :linear)

(defthm how-often-parts
  (equal (+ (how-often a (part x t)) (how-often a (part x nil))) (how-often a x))
  :rule-classes :linear)

; What was said of these two is used, and not how they go.
(in-theory (disable merge2 part))

(defthm true-listp-merge-sort
  (true-listp (merge-sort x))
  :hints (("Goal" :induct (merge-sort x))))
