; A small machine, 4 of 4: what programs keep, expressions in the place of variables, and constants worked out before.
(in-package "ACL2")

(include-book "machine-compiler")

(defun either (p q) (if p p q))

; Variables of an expression.
(defun occurs (v e)
  (if (consp e) (either (occurs v (left e)) (occurs v (right e))) (equal v e)))

(defun variables (e)
  (if (consp e)
      (app (variables (left e)) (variables (right e)))
    (if (symbolp e) (cons e nil) nil)))

(defthm mem-variables
  (implies (symbolp v) (equal (mem v (variables e)) (occurs v e))))

(defthm value-of-store-of-another
  (implies (not (occurs v e))
           (equal (value-of e (store v k m)) (value-of e m)))
  :hints (("Goal" :induct (value-of e m) :in-theory (enable value-of))))

(defthm value-of-same-memories
  (implies (same-of (variables e) m n) (equal (value-of e m) (value-of e n)))
  :rule-classes nil
  :hints (("Goal" :induct (variables e) :in-theory (enable value-of))))

; An expression in the place of a variable.
(defun put-for (d v e)
  (if (consp e)
      (list (operation e) (put-for d v (left e)) (put-for d v (right e)))
    (if (equal e v) d e)))

(defthm value-of-put-for
  (implies (symbolp v)
           (equal (value-of (put-for d v e) m)
                  (value-of e (store v (value-of d m) m))))
  :hints (("Goal" :induct (put-for d v e) :in-theory (enable value-of))))

(defthm put-for-of-another
  (implies (not (occurs v e)) (equal (value-of (put-for d v e) m) (value-of e m)))
  :hints (("Goal" :induct (put-for d v e) :in-theory (enable value-of))))

(defthm occurs-put-for
  (implies (and (not (occurs w d)) (not (occurs w e)))
           (not (occurs w (put-for d v e)))))

(defthm expression-p-put-for
  (implies (and (expression-p d) (expression-p e)) (expression-p (put-for d v e))))

(defthm size-of-put-for-a-leaf
  (implies (not (consp d)) (equal (size-of (put-for d v e)) (size-of e))))

; Constants are worked out.
(defun folded-one (f a b)
  (if (and (integerp a) (integerp b))
      (operate f a b)
    (if (and (equal f 'plus) (equal a 0))
        b
      (if (and (equal f 'times) (equal a 1)) b (list f a b)))))

(defun folded (e)
  (if (consp e)
      (folded-one (operation e) (folded (left e)) (folded (right e)))
    e))

(defthm value-of-an-integer
  (implies (integerp e) (equal (value-of e m) e))
  :hints (("Goal" :in-theory (enable value-of))))

(defthm value-of-a-list
  (equal (value-of (list f a b) m) (operate f (value-of a m) (value-of b m)))
  :hints (("Goal" :in-theory (enable value-of))))

(defthm value-of-folded-one
  (equal (value-of (folded-one f a b) m)
         (operate f (value-of a m) (value-of b m))))

(defthm expression-p-folded-one
  (implies (and (symbolp f) (expression-p a) (expression-p b))
           (expression-p (folded-one f a b))))

(defthm size-of-folded-one
  (<= (size-of (folded-one f a b)) (+ 1 (size-of a) (size-of b)))
  :rule-classes :linear)

(in-theory (disable folded-one))

(defthm value-of-folded
  (equal (value-of (folded e) m) (value-of e m))
  :hints (("Goal" :induct (folded e) :in-theory (enable value-of))))

(defthm expression-p-folded
  (implies (expression-p e) (expression-p (folded e))))

(defthm size-of-folded
  (<= (size-of (folded e)) (size-of e))
  :rule-classes :linear)

(defthm code-of-folded-is-no-longer
  (<= (len (code-of (folded e))) (len (code-of e)))
  :rule-classes nil)

(defthm code-of-folded-is-correct
  (equal (run (code-of (folded e)) m s) (cons m (cons (value-of e m) s))))

; Statements: which variables they keep.
(defun keeps (v l)
  (declare (xargs :measure (count-of l)
                  :hints (("Goal" :use ((:instance count-of-cons (x l)))))))
  (if (consp l)
      (if (equal (head (car l)) 'keep)
          (either (equal v (var-of (car l))) (keeps v (cdr l)))
        (either (keeps v (then-part (car l)))
                (either (keeps v (else-part (car l))) (keeps v (cdr l)))))
    nil))

(defthm keeps-app
  (iff (keeps v (app x y)) (or (keeps v x) (keeps v y)))
  :hints (("Goal" :induct (keeps v x))))

(defthm fetch-exec-of-another
  (implies (not (keeps v l)) (equal (fetch v (exec l m)) (fetch v m)))
  :hints (("Goal" :induct (exec l m))))

; Folding of all expressions in statements.
(defun statement-keep (v e) (list 'keep v e))
(defun statement-when (e a b) (list 'when e a b))

(defthm parts-of-keep
  (and (equal (head (statement-keep v e)) 'keep)
       (equal (var-of (statement-keep v e)) v)
       (equal (expression (statement-keep v e)) e))
  :hints (("Goal" :in-theory (enable head var-of expression))))

(defthm parts-of-when
  (and (equal (head (statement-when e a b)) 'when)
       (equal (test (statement-when e a b)) e)
       (equal (then-part (statement-when e a b)) a)
       (equal (else-part (statement-when e a b)) b))
  :hints (("Goal" :in-theory (enable head test then-part else-part))))

(in-theory (disable statement-keep statement-when))

(defun folded-all (l)
  (declare (xargs :measure (count-of l)
                  :hints (("Goal" :use ((:instance count-of-cons (x l)))))))
  (if (consp l)
      (if (equal (head (car l)) 'keep)
          (cons (statement-keep (var-of (car l)) (folded (expression (car l))))
                (folded-all (cdr l)))
        (cons (statement-when (folded (test (car l)))
                              (folded-all (then-part (car l)))
                              (folded-all (else-part (car l))))
              (folded-all (cdr l))))
    nil))

(defthm folded-all-app
  (equal (folded-all (app x y)) (app (folded-all x) (folded-all y)))
  :hints (("Goal" :induct (app x y) :in-theory (disable folded))))

(defthm exec-folded-all
  (equal (exec (folded-all l) m) (exec l m))
  :hints (("Goal" :induct (exec l m) :in-theory (disable folded)
                  :expand ((exec l m) (folded-all l)))))

(defthm folded-program-is-correct
  (equal (run (code-of-all (folded-all l)) m s) (cons (exec l m) s))
  :hints (("Goal" :in-theory (disable code-of-all folded-all exec))))

; One assignment after another.
(defthm exec-keep
  (equal (exec (cons (statement-keep v e) l) m)
         (exec l (store v (value-of e m) m))))

(defthm exec-when
  (equal (exec (cons (statement-when e a b) l) m)
         (exec l (if (equal (value-of e m) 0) (exec b m) (exec a m)))))

(defthm second-assignment-stays
  (implies (not (occurs v e))
           (equal (exec (list (statement-keep v d) (statement-keep v e)) m)
                  (exec (list (statement-keep v e)) m)))
  :hints (("Goal" :in-theory (disable exec folded-all))))

(defthm assignment-put-for
  (implies (and (symbolp v) (not (equal v w)))
           (equal (fetch w (exec (list (statement-keep v d) (statement-keep w e)) m))
                  (value-of (put-for d v e) m))))

(defthm when-of-a-constant
  (implies (and (integerp k) (not (equal k 0)))
           (equal (exec (list (statement-when k a b)) m) (exec a m))))

(defthm when-with-equal-parts
  (equal (exec (list (statement-when e a a)) m) (exec a m)))
