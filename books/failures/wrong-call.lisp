; The induction goes by the wrong call: by (len x), which leaves n as it is, where first-n takes one off it.
; wrong-call-mended.lisp is its repair.
(in-package "ACL2")

(defun first-n (n x)
  (if (zp n) nil (cons (car x) (first-n (- n 1) (cdr x)))))

(defthm len-first-n
  (implies (and (natp n) (<= n (len x)))
           (equal (len (first-n n x)) n)))
