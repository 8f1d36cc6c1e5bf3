; wrong-call.lisp with the hint that it needs: the induction is that of first-n, which changes both n and x.
(in-package "ACL2")

(defun first-n (n x)
  (if (zp n) nil (cons (car x) (first-n (- n 1) (cdr x)))))

(defthm len-first-n
  (implies (and (natp n) (<= n (len x)))
           (equal (len (first-n n x)) n))
  :hints (("Goal" :induct (first-n n x))))
