; A fact about characters that no rule here gives, proved by running it: the code of each character that a code gives.
(in-package "ACL2")

; That it holds of all codes below m is a call on a constant, which is run.
(defun codes-below (m)
  (if (zp m) t (and (equal (char-code (code-char (- m 1))) (- m 1)) (codes-below (- m 1)))))

(defthm minus-one-plus-one
  (implies (integerp x) (equal (+ -1 (+ 1 x)) x)))

(defthm code-of-one-below
  (implies (and (codes-below m) (natp m) (natp n) (< n m))
           (equal (char-code (code-char n)) n))
  :rule-classes nil
  :hints (("Goal" :induct (codes-below m))
          ("Subgoal *1/3'" :cases ((equal m (+ 1 n))))))

(defthm char-code-code-char
  (implies (and (natp n) (< n 256))
           (equal (char-code (code-char n)) n))
  :hints (("Goal" :use ((:instance code-of-one-below (m 256))))))
