; A small machine, 2 of 4: its instructions, what each does, and programs that jump forward.
(in-package "ACL2")

(include-book "machine-base")

; The operations.
(defun operate (f a b)
  (cond ((equal f 'plus) (+ a b))
        ((equal f 'minus) (- a b))
        ((equal f 'times) (* a b))
        ((equal f 'less) (if (< a b) 1 0))
        (t (if (equal a b) 1 0))))

(defthm integerp-operate
  (implies (and (integerp a) (integerp b)) (integerp (operate f a b))))

(defthm operate-plus-0
  (implies (integerp b) (equal (operate 'plus 0 b) b)))

(defthm operate-times-0
  (equal (operate 'times 0 b) 0))

(defthm operate-times-1
  (implies (integerp b) (equal (operate 'times 1 b) b)))

(defthm operate-plus-turned
  (equal (operate 'plus a b) (operate 'plus b a))
  :rule-classes nil)

(defthm operate-times-turned
  (equal (operate 'times a b) (operate 'times b a))
  :rule-classes nil)

(in-theory (disable operate))

; An instruction: (PUSH k), (LOAD v), (KEEP v), (DO f), (JUMP n), (JUMP-IF-0 n).
(defun kind (i) (car i))
(defun argument (i) (car (cdr i)))

; A program in a memory and on a stack; what is left is the memory and the stack.
(defun run (code m s)
  (declare (xargs :measure (len code)))
  (if (consp code)
      (cond ((equal (kind (car code)) 'push)
             (run (cdr code) m (cons (argument (car code)) s)))
            ((equal (kind (car code)) 'load)
             (run (cdr code) m (cons (fetch (argument (car code)) m) s)))
            ((equal (kind (car code)) 'keep)
             (run (cdr code) (store (argument (car code)) (car s) m) (cdr s)))
            ((equal (kind (car code)) 'do)
             (run (cdr code) m
                  (cons (operate (argument (car code)) (car (cdr s)) (car s)) (cdr (cdr s)))))
            ((equal (kind (car code)) 'jump)
             (run (behind (argument (car code)) (cdr code)) m s))
            ((equal (kind (car code)) 'jump-if-0)
             (run (if (equal (car s) 0) (behind (argument (car code)) (cdr code)) (cdr code))
                  m (cdr s)))
            (t (run (cdr code) m s)))
    (cons m s)))

; What each instruction does.
(defthm run-nothing
  (equal (run nil m s) (cons m s)))

(defthm run-push
  (implies (and (consp code) (equal (kind (car code)) 'push))
           (equal (run code m s)
                  (run (cdr code) m (cons (argument (car code)) s)))))

(defthm run-load
  (implies (and (consp code) (equal (kind (car code)) 'load))
           (equal (run code m s)
                  (run (cdr code) m (cons (fetch (argument (car code)) m) s)))))

(defthm run-keep
  (implies (and (consp code) (equal (kind (car code)) 'keep))
           (equal (run code m s)
                  (run (cdr code) (store (argument (car code)) (car s) m) (cdr s)))))

(defthm run-do
  (implies (and (consp code) (equal (kind (car code)) 'do))
           (equal (run code m s)
                  (run (cdr code) m
                       (cons (operate (argument (car code)) (car (cdr s)) (car s)) (cdr (cdr s)))))))

(defthm run-jump
  (implies (and (consp code) (equal (kind (car code)) 'jump))
           (equal (run code m s)
                  (run (behind (argument (car code)) (cdr code)) m s))))

(defthm run-jump-if-0
  (implies (and (consp code) (equal (kind (car code)) 'jump-if-0))
           (equal (run code m s)
                  (run (if (equal (car s) 0) (behind (argument (car code)) (cdr code)) (cdr code))
                       m (cdr s)))))

; How many instructions a run takes: none is taken twice.
(defun steps (code m s)
  (declare (xargs :measure (len code)))
  (if (consp code)
      (cond ((equal (kind (car code)) 'push)
             (+ 1 (steps (cdr code) m (cons (argument (car code)) s))))
            ((equal (kind (car code)) 'load)
             (+ 1 (steps (cdr code) m (cons (fetch (argument (car code)) m) s))))
            ((equal (kind (car code)) 'keep)
             (+ 1 (steps (cdr code) (store (argument (car code)) (car s) m) (cdr s))))
            ((equal (kind (car code)) 'do)
             (+ 1 (steps (cdr code) m
                         (cons (operate (argument (car code)) (car (cdr s)) (car s))
                               (cdr (cdr s))))))
            ((equal (kind (car code)) 'jump)
             (+ 1 (steps (behind (argument (car code)) (cdr code)) m s)))
            ((equal (kind (car code)) 'jump-if-0)
             (+ 1 (steps (if (equal (car s) 0)
                             (behind (argument (car code)) (cdr code))
                           (cdr code))
                         m (cdr s))))
            (t (+ 1 (steps (cdr code) m s))))
    0))

(defthm steps-at-most-len
  (<= (steps code m s) (len code))
  :rule-classes :linear
  :hints (("Goal" :induct (steps code m s))))

(in-theory (disable run steps))

; Each jump leads to a place in the program, or to its end.
(defun inside-p (i n)
  (if (or (equal (kind i) 'jump) (equal (kind i) 'jump-if-0))
      (and (natp (argument i)) (<= (argument i) n))
    t))

(defthm inside-p-of-more
  (implies (and (inside-p i n) (<= n k)) (inside-p i k)))

(defthm inside-p-of-no-jump
  (implies (and (not (equal (kind i) 'jump)) (not (equal (kind i) 'jump-if-0)))
           (inside-p i n)))

(defthm inside-p-of-a-place
  (implies (and (natp (argument i)) (<= (argument i) n)) (inside-p i n)))

(in-theory (disable inside-p))

(defun jumps-inside (code)
  (if (consp code)
      (and (inside-p (car code) (len (cdr code))) (jumps-inside (cdr code)))
    t))

(defthm jumps-inside-app
  (implies (and (jumps-inside x) (jumps-inside y)) (jumps-inside (app x y))))

; Programs without jumps run one after the other.
(defun straight (code)
  (if (consp code)
      (and (not (equal (kind (car code)) 'jump))
           (not (equal (kind (car code)) 'jump-if-0))
           (straight (cdr code)))
    t))

(defthm straight-app
  (equal (straight (app x y)) (and (straight x) (straight y))))

(defthm straight-is-inside
  (implies (straight code) (jumps-inside code)))

(defthm run-straight-app
  (implies (straight x)
           (equal (run (app x y) m s) (run y (car (run x m s)) (cdr (run x m s)))))
  :rule-classes nil
  :hints (("Goal" :induct (run x m s) :in-theory (enable run))))

; Each instruction is one that the machine has.
(defun instruction-p (i)
  (if (consp i)
      (cond ((equal (kind i) 'push) (integerp (argument i)))
            ((equal (kind i) 'load) (symbolp (argument i)))
            ((equal (kind i) 'keep) (symbolp (argument i)))
            ((equal (kind i) 'do) (symbolp (argument i)))
            ((equal (kind i) 'jump) (natp (argument i)))
            (t (and (equal (kind i) 'jump-if-0) (natp (argument i)))))
    nil))

(defthm instruction-p-push
  (implies (and (consp i) (equal (kind i) 'push) (integerp (argument i))) (instruction-p i)))

(defthm instruction-p-load
  (implies (and (consp i) (equal (kind i) 'load) (symbolp (argument i))) (instruction-p i)))

(defthm instruction-p-do
  (implies (and (consp i) (equal (kind i) 'do) (symbolp (argument i))) (instruction-p i)))

(in-theory (disable instruction-p))

(defun code-p (code)
  (if (consp code) (and (instruction-p (car code)) (code-p (cdr code))) (equal code nil)))

(defthm code-p-app
  (implies (code-p x) (equal (code-p (app x y)) (code-p y))))

(defthm code-p-is-true-listp
  (implies (code-p x) (true-listp x)))
