; A small machine, 3 of 4: expressions and statements, their meaning, the compiler, and that it is correct.
(in-package "ACL2")

(include-book "machine-code")

; An expression is an integer, a variable, or a list (OPERATION LEFT RIGHT).
(defun operation (e) (car e))
(defun left (e) (car (cdr e)))
(defun right (e) (car (cdr (cdr e))))

(defun value-of (e m)
  (if (consp e)
      (operate (operation e) (value-of (left e) m) (value-of (right e) m))
    (if (symbolp e) (fetch e m) (ifix e))))

(defthm integerp-value-of
  (integerp (value-of e m)))

(defun code-of (e)
  (if (consp e)
      (app (code-of (left e))
           (app (code-of (right e)) (cons (list 'do (operation e)) nil)))
    (if (symbolp e)
        (cons (list 'load e) nil)
      (cons (list 'push (ifix e)) nil))))

(defthm true-listp-code-of
  (true-listp (code-of e)))

(defun size-of (e)
  (if (consp e) (+ 1 (size-of (left e)) (size-of (right e))) 1))

(defthm len-code-of
  (equal (len (code-of e)) (size-of e)))

(defthm straight-code-of
  (straight (code-of e)))

(defthm jumps-inside-code-of
  (jumps-inside (code-of e)))

(defun both-of (p q) (if p q nil))

(defun expression-p (e)
  (if (consp e)
      (both-of (symbolp (operation e))
               (both-of (expression-p (left e)) (expression-p (right e))))
    (or (symbolp e) (integerp e))))

(defthm code-p-code-of
  (implies (expression-p e) (code-p (code-of e)))
  :hints (("Goal" :induct (code-of e))))

; The induction: the right part on the stack that the left part leaves, each before what comes then.
(defun by-parts (e rest m s)
  (if (consp e)
      (cons (by-parts (left e)
                      (app (code-of (right e)) (cons (list 'do (operation e)) rest))
                      m s)
            (by-parts (right e)
                      (cons (list 'do (operation e)) rest)
                      m (cons (value-of (left e) m) s)))
    (list rest m s)))

(defthm code-of-is-correct
  (equal (run (app (code-of e) rest) m s)
         (run rest m (cons (value-of e m) s)))
  :hints (("Goal" :induct (by-parts e rest m s))))

(defthm code-of-alone-is-correct
  (equal (run (code-of e) m s) (cons m (cons (value-of e m) s)))
  :hints (("Goal" :use ((:instance code-of-is-correct (rest nil)))
                  :in-theory (disable code-of-is-correct code-of value-of))))

(in-theory (disable value-of code-of))

; A statement is (KEEP v e) or (WHEN e THEN ELSE); these are lists of statements.
(defun head (st) (car st))
(defun var-of (st) (car (cdr st)))
(defun expression (st) (car (cdr (cdr st))))
(defun test (st) (car (cdr st)))
(defun then-part (st) (car (cdr (cdr st))))
(defun else-part (st) (car (cdr (cdr (cdr st)))))

(defun count-of (x)
  (if (consp x) (+ 1 (count-of (car x)) (count-of (cdr x))) 0))

(defthm natp-count-of
  (natp (count-of x)))

(defthm count-of-app
  (equal (count-of (app x y)) (+ (count-of x) (count-of y)))
  :hints (("Goal" :induct (app x y))))

(defthm count-of-car
  (<= (count-of (car x)) (count-of x))
  :rule-classes :linear)

(defthm count-of-cdr
  (<= (count-of (cdr x)) (count-of x))
  :rule-classes :linear)

(defthm count-of-cons
  (implies (consp x)
           (equal (count-of x) (+ 1 (count-of (car x)) (count-of (cdr x)))))
  :rule-classes nil)

(defthm then-part-is-smaller
  (<= (count-of (then-part st)) (count-of st))
  :rule-classes :linear
  :hints (("Goal" :in-theory (disable count-of count-of-car count-of-cdr)
                  :use ((:instance count-of-car (x (cdr (cdr st))))
                        (:instance count-of-cdr (x (cdr st)))
                        (:instance count-of-cdr (x st))))))

(defthm else-part-is-smaller
  (<= (count-of (else-part st)) (count-of st))
  :rule-classes :linear
  :hints (("Goal" :in-theory (disable count-of count-of-car count-of-cdr)
                  :use ((:instance count-of-car (x (cdr (cdr (cdr st)))))
                        (:instance count-of-cdr (x (cdr (cdr st))))
                        (:instance count-of-cdr (x (cdr st)))
                        (:instance count-of-cdr (x st))))))

(in-theory (disable count-of head var-of expression test then-part else-part))

(defun exec (l m)
  (declare (xargs :measure (count-of l)
                  :hints (("Goal" :use ((:instance count-of-cons (x l)))))))
  (if (consp l)
      (if (equal (head (car l)) 'keep)
          (exec (cdr l)
                (store (var-of (car l)) (value-of (expression (car l)) m) m))
        (if (equal (value-of (test (car l)) m) 0)
            (exec (app (else-part (car l)) (cdr l)) m)
          (exec (app (then-part (car l)) (cdr l)) m)))
    m))

(defthm exec-app
  (equal (exec (app x y) m) (exec y (exec x m)))
  :hints (("Goal" :induct (exec x m))))

(defun code-of-all (l)
  (declare (xargs :measure (count-of l)
                  :hints (("Goal" :use ((:instance count-of-cons (x l)))))))
  (if (consp l)
      (if (equal (head (car l)) 'keep)
          (app (code-of (expression (car l)))
               (cons (list 'keep (var-of (car l))) (code-of-all (cdr l))))
        (app (code-of (test (car l)))
             (cons (list 'jump-if-0 (+ 1 (len (code-of-all (then-part (car l))))))
                   (app (code-of-all (then-part (car l)))
                        (cons (list 'jump (len (code-of-all (else-part (car l)))))
                              (app (code-of-all (else-part (car l)))
                                   (code-of-all (cdr l))))))))
    nil))

(defun by-statements (l rest m s)
  (declare (xargs :measure (count-of l)
                  :hints (("Goal" :use ((:instance count-of-cons (x l)))))))
  (if (consp l)
      (if (equal (head (car l)) 'keep)
          (by-statements (cdr l) rest
                         (store (var-of (car l)) (value-of (expression (car l)) m) m) s)
        (if (equal (value-of (test (car l)) m) 0)
            (cons (by-statements (else-part (car l)) (app (code-of-all (cdr l)) rest) m s)
                  (by-statements (cdr l) rest (exec (else-part (car l)) m) s))
          (cons (by-statements (then-part (car l))
                               (cons (list 'jump (len (code-of-all (else-part (car l)))))
                                     (app (code-of-all (else-part (car l)))
                                          (app (code-of-all (cdr l)) rest)))
                               m s)
                (by-statements (cdr l) rest (exec (then-part (car l)) m) s))))
    (list rest m s)))

(defthm code-of-all-is-correct
  (equal (run (app (code-of-all l) rest) m s) (run rest (exec l m) s))
  :hints (("Goal" :induct (by-statements l rest m s) :expand ((exec l m) (code-of-all l)))))

(defthm true-listp-code-of-all
  (true-listp (code-of-all l))
  :hints (("Goal" :induct (code-of-all l))))

(defthm the-compiler-is-correct
  (equal (run (code-of-all l) m s) (cons (exec l m) s))
  :hints (("Goal" :use ((:instance code-of-all-is-correct (rest nil)))
                  :in-theory (disable code-of-all-is-correct code-of-all exec))))

(defthm jumps-inside-code-of-all
  (jumps-inside (code-of-all l))
  :hints (("Goal" :induct (code-of-all l))))
