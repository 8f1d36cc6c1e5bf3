; Functions that ACL2 has and the ground world hasn't, under ACL2's names, which are free here: include this book, or copy
; what you need. They have ACL2's values on all arguments, but for those of the last part.
(in-package "ACL2")

; Lists.
(defun nth (n x) (if (endp x) nil (if (zp n) (car x) (nth (- n 1) (cdr x)))))
(defun nthcdr (n x) (if (zp n) x (nthcdr (- n 1) (cdr x))))
(defun take (n x) (if (zp n) nil (cons (car x) (take (- n 1) (cdr x)))))
(defun last (x) (if (consp (cdr x)) (last (cdr x)) x))
(defun revappend (x y) (if (endp x) y (revappend (cdr x) (cons (car x) y))))
(defun update-nth (n v x)
  (if (zp n) (cons v (cdr x)) (cons (car x) (update-nth (- n 1) v (cdr x)))))

; Association lists.
(defun alistp (x) (if (atom x) (equal x nil) (and (consp (car x)) (alistp (cdr x)))))
(defun assoc-equal (a x)
  (if (endp x) nil (if (equal a (car (car x))) (car x) (assoc-equal a (cdr x)))))
(defun acons (a b x) (cons (cons a b) x))
(defun strip-cars (x) (if (endp x) nil (cons (car (car x)) (strip-cars (cdr x)))))
(defun strip-cdrs (x) (if (endp x) nil (cons (cdr (car x)) (strip-cdrs (cdr x)))))
(defun pairlis$ (x y)
  (if (endp x) nil (cons (cons (car x) (car y)) (pairlis$ (cdr x) (cdr y)))))

; Lists as sets.
(defun remove-equal (a x)
  (if (endp x) nil (if (equal a (car x)) (remove-equal a (cdr x)) (cons (car x) (remove-equal a (cdr x))))))
(defun remove1-equal (a x)
  (if (endp x) nil (if (equal a (car x)) (cdr x) (cons (car x) (remove1-equal a (cdr x))))))
(defun no-duplicatesp-equal (x)
  (if (endp x) t (if (member-equal (car x) (cdr x)) nil (no-duplicatesp-equal (cdr x)))))
(defun subsetp-equal (x y)
  (if (endp x) t (and (member-equal (car x) y) (subsetp-equal (cdr x) y))))
(defun union-equal (x y)
  (if (endp x) y (if (member-equal (car x) y) (union-equal (cdr x) y) (cons (car x) (union-equal (cdr x) y)))))
(defun intersection-equal (x y)
  (if (endp x) nil
    (if (member-equal (car x) y) (cons (car x) (intersection-equal (cdr x) y)) (intersection-equal (cdr x) y))))
(defun set-difference-equal (x y)
  (if (endp x) nil
    (if (member-equal (car x) y) (set-difference-equal (cdr x) y) (cons (car x) (set-difference-equal (cdr x) y)))))

; What lists have in them.
(defun symbol-listp (x) (if (atom x) (equal x nil) (and (symbolp (car x)) (symbol-listp (cdr x)))))
(defun integer-listp (x) (if (atom x) (equal x nil) (and (integerp (car x)) (integer-listp (cdr x)))))
(defun nat-listp (x) (if (atom x) (equal x nil) (and (natp (car x)) (nat-listp (cdr x)))))
(defun string-listp (x) (if (atom x) (equal x nil) (and (stringp (car x)) (string-listp (cdr x)))))
(defun character-listp (x) (if (atom x) (equal x nil) (and (characterp (car x)) (character-listp (cdr x)))))

; Strings, and what is or isn't so.
(defun string-append (x y) (coerce (append (coerce x 'list) (coerce y 'list)) 'string))
(defun xor (p q) (if p (if q nil t) (if q t nil)))
(defun listp (x) (or (consp x) (equal x nil)))

; Numbers. ACL2's mod, floor, evenp and expt take any rational; these are of natural numbers, so they have other names.
(defun nat-mod (n d)
  (declare (xargs :measure (nfix n)))
  (if (or (not (natp n)) (not (posp d)) (< n d)) n (nat-mod (- n d) d)))
(defun nat-floor (n d)
  (declare (xargs :measure (nfix n)))
  (if (or (not (natp n)) (not (posp d)) (< n d)) 0 (+ 1 (nat-floor (- n d) d))))
(defun nat-evenp (n) (equal (nat-mod n 2) 0))
(defun nat-expt (b n) (if (zp n) 1 (* b (nat-expt b (- n 1)))))
