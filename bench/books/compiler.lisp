; A compiler of expressions to a machine with a stack, and that it is correct.
(in-package "ACL2")

; An expression is an integer, a variable (a symbol), or a list (OPERATOR LEFT RIGHT). Values are integers.
(defun look-up (v env)
  (if (consp env)
      (if (equal v (car (car env))) (ifix (cdr (car env))) (look-up v (cdr env)))
    0))

(defthm integerp-look-up
  (integerp (look-up v env))
  :rule-classes :type-prescription)

(defun operate (f a b)
  (cond ((equal f 'plus) (+ a b))
        ((equal f 'minus) (- a b))
        ((equal f 'times) (* a b))
        (t (if (< a b) 1 0))))

(defun operator (x) (car x))
(defun left (x) (car (cdr x)))
(defun right (x) (car (cdr (cdr x))))

(defun value-of (x env)
  (if (consp x)
      (operate (operator x) (value-of (left x) env) (value-of (right x) env))
    (if (symbolp x) (look-up x env) (ifix x))))

; The machine: (PUSH k), (LOAD v) or (DO f), each on a stack.
(defun top (stack) (car stack))
(defun second-top (stack) (car (cdr stack)))
(defun below-two (stack) (cdr (cdr stack)))

(defun do-one (i env stack)
  (cond ((equal (car i) 'push) (cons (car (cdr i)) stack))
        ((equal (car i) 'load) (cons (look-up (car (cdr i)) env) stack))
        (t (cons (operate (car (cdr i)) (second-top stack) (top stack)) (below-two stack)))))

(defun run (code env stack)
  (if (consp code)
      (run (cdr code) env (do-one (car code) env stack))
    stack))

(defun app (x y)
  (if (consp x) (cons (car x) (app (cdr x) y)) y))

(defthm app-assoc
  (equal (app (app x y) z) (app x (app y z))))

(defun code-of (x)
  (if (consp x)
      (app (code-of (left x))
           (app (code-of (right x))
                (cons (list 'do (operator x)) nil)))
    (if (symbolp x)
        (cons (list 'load x) nil)
      (cons (list 'push (ifix x)) nil))))

(defthm run-app
  (equal (run (app a b) env stack) (run b env (run a env stack)))
  :hints (("Goal" :induct (run a env stack))))

; The induction goes by both parts of the expression, the second on the stack that the first leaves.
(defun by-parts (x env stack)
  (if (consp x)
      (cons (by-parts (left x) env stack)
            (by-parts (right x) env (cons (value-of (left x) env) stack)))
    (cons env stack)))

(defthm code-is-correct
  (equal (run (code-of x) env stack)
         (cons (value-of x env) stack))
  :hints (("Goal" :induct (by-parts x env stack))))

(defthm top-is-the-value
  (equal (car (run (code-of x) env nil)) (value-of x env)))

(defthm true-listp-code-of
  (true-listp (code-of x)))

; The code is as long as the expression is large.
(defun size-of (x)
  (if (consp x) (+ 1 (size-of (left x)) (size-of (right x))) 1))

(defthm len-app
  (equal (len (app x y)) (+ (len x) (len y))))

(defthm len-code-of
  (equal (len (code-of x)) (size-of x)))

; A pass before it: what stands between constants is worked out, and nothing is added to 0.
(defun folded-one (f a b)
  (if (and (integerp a) (integerp b))
      (operate f a b)
    (if (and (equal f 'plus) (equal a 0)) b (list f a b))))

(defun folded (x)
  (if (consp x)
      (folded-one (operator x) (folded (left x)) (folded (right x)))
    x))

(defthm integerp-operate
  (implies (and (integerp a) (integerp b)) (integerp (operate f a b))))

(defthm integerp-value-of
  (integerp (value-of x env)))

(in-theory (disable operate))

(defthm value-of-folded-one
  (equal (value-of (folded-one f a b) env)
         (operate f (value-of a env) (value-of b env)))
  :hints (("Goal" :in-theory (enable operate))))

(in-theory (disable folded-one))

(defthm value-of-folded
  (equal (value-of (folded x) env) (value-of x env)))

(defthm folded-code-is-correct
  (equal (run (code-of (folded x)) env stack)
         (cons (value-of x env) stack)))

; A value stays the same where a variable that isn't in the expression changes.
(defun either (p q) (if p p q))

(defun occurs (v x)
  (if (consp x) (either (occurs v (left x)) (occurs v (right x))) (equal v x)))

(defthm value-of-other-variable
  (implies (not (occurs v x))
           (equal (value-of x (cons (cons v k) env)) (value-of x env))))

; An expression in the place of a variable.
(defun put-for (e v x)
  (if (consp x)
      (list (operator x) (put-for e v (left x)) (put-for e v (right x)))
    (if (equal x v) e x)))

(defthm value-of-put-for
  (implies (and (symbolp v) (equal k (value-of e env)))
           (equal (value-of (put-for e v x) env)
                  (value-of x (cons (cons v k) env))))
  :hints (("Goal" :induct (put-for e v x))))
