; Insertion sort: what it gives is in order, and a permutation of what it was given.
(in-package "ACL2")

(defun ordered (x)
  (if (consp x)
      (if (consp (cdr x)) (and (<= (car x) (car (cdr x))) (ordered (cdr x))) t)
    t))

(defun insert (a x)
  (if (consp x)
      (if (<= a (car x)) (cons a x) (cons (car x) (insert a (cdr x))))
    (cons a nil)))

(defun insertion-sort (x)
  (if (consp x) (insert (car x) (insertion-sort (cdr x))) nil))

(defthm consp-insert
  (consp (insert a x)))

(defthm ordered-insert
  (implies (ordered x) (ordered (insert a x))))

(defthm ordered-insertion-sort
  (ordered (insertion-sort x)))

(defthm true-listp-insertion-sort
  (true-listp (insertion-sort x)))

(defthm len-insert
  (equal (len (insert a x)) (+ 1 (len x))))

(defthm len-insertion-sort
  (equal (len (insertion-sort x)) (len x)))

; How often something is in a list.
(defun how-often (a x)
  (if (consp x) (if (equal a (car x)) (+ 1 (how-often a (cdr x))) (how-often a (cdr x))) 0))

(defthm how-often-insert
  (equal (how-often a (insert b x))
         (if (equal a b) (+ 1 (how-often a x)) (how-often a x))))

(defthm how-often-insertion-sort
  (equal (how-often a (insertion-sort x)) (how-often a x)))

; Permutations.
(defun mem (a x)
  (if (consp x) (or (equal a (car x)) (mem a (cdr x))) nil))

(defun drop-one (a x)
  (if (consp x)
      (if (equal a (car x)) (cdr x) (cons (car x) (drop-one a (cdr x))))
    nil))

(defun perm (x y)
  (if (consp x)
      (and (mem (car x) y) (perm (cdr x) (drop-one (car x) y)))
    (atom y)))

(defthm perm-self
  (perm x x))

(defthm mem-insert
  (iff (mem a (insert b x)) (or (equal a b) (mem a x))))

(defthm drop-one-insert
  (implies (true-listp x) (equal (drop-one a (insert a x)) x)))

(defthm perm-insertion-sort
  (perm x (insertion-sort x)))

; Sorting what is in order changes nothing.
(defthm insert-below
  (implies (and (ordered (cons a x)) (true-listp x))
           (equal (insert a x) (cons a x))))
