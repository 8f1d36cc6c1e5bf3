; Propositional formulas of growing size.
(in-package "ACL2")

; The first implies the last, by so many steps.
(defthm chain-4
  (implies (and a1 (implies a1 a2) (implies a2 a3) (implies a3 a4)) a4)
  :rule-classes nil)

(defthm chain-8
  (implies (and a1 (implies a1 a2) (implies a2 a3) (implies a3 a4) (implies a4 a5) (implies a5 a6)
                (implies a6 a7) (implies a7 a8))
           a8)
  :rule-classes nil)

(defthm chain-16
  (implies (and a1 (implies a1 a2) (implies a2 a3) (implies a3 a4) (implies a4 a5) (implies a5 a6)
                (implies a6 a7) (implies a7 a8) (implies a8 a9) (implies a9 a10) (implies a10 a11)
                (implies a11 a12) (implies a12 a13) (implies a13 a14) (implies a14 a15) (implies a15 a16))
           a16)
  :rule-classes nil)

(defthm chain-24
  (implies (and a1 (implies a1 a2) (implies a2 a3) (implies a3 a4) (implies a4 a5) (implies a5 a6)
                (implies a6 a7) (implies a7 a8) (implies a8 a9) (implies a9 a10) (implies a10 a11)
                (implies a11 a12) (implies a12 a13) (implies a13 a14) (implies a14 a15) (implies a15 a16)
                (implies a16 a17) (implies a17 a18) (implies a18 a19) (implies a19 a20) (implies a20 a21)
                (implies a21 a22) (implies a22 a23) (implies a23 a24))
           a24)
  :rule-classes nil)

; One of so many holds just where it is not so that none does.
(defthm none-of-4
  (iff (or a1 a2 a3 a4) (not (and (not a1) (not a2) (not a3) (not a4))))
  :rule-classes nil)

(defthm none-of-8
  (iff (or a1 a2 a3 a4 a5 a6 a7 a8)
       (not (and (not a1) (not a2) (not a3) (not a4) (not a5) (not a6) (not a7) (not a8))))
  :rule-classes nil)

(defthm none-of-16
  (iff (or a1 a2 a3 a4 a5 a6 a7 a8 a9 a10 a11 a12 a13 a14 a15 a16)
       (not (and (not a1) (not a2) (not a3) (not a4) (not a5) (not a6) (not a7) (not a8) (not a9) (not a10)
                 (not a11) (not a12) (not a13) (not a14) (not a15) (not a16))))
  :rule-classes nil)

(defthm none-of-24
  (iff (or a1 a2 a3 a4 a5 a6 a7 a8 a9 a10 a11 a12 a13 a14 a15 a16 a17 a18 a19 a20 a21 a22 a23 a24)
       (not (and (not a1) (not a2) (not a3) (not a4) (not a5) (not a6) (not a7) (not a8) (not a9) (not a10)
                 (not a11) (not a12) (not a13) (not a14) (not a15) (not a16) (not a17) (not a18) (not a19)
                 (not a20) (not a21) (not a22) (not a23) (not a24))))
  :rule-classes nil)

; All in a row are alike, so the first and the last are.
(defthm alike-3
  (implies (and (iff a1 a2) (iff a2 a3)) (iff a1 a3))
  :rule-classes nil)

(defthm alike-4
  (implies (and (iff a1 a2) (iff a2 a3) (iff a3 a4)) (iff a1 a4))
  :rule-classes nil)

(defthm alike-5
  (implies (and (iff a1 a2) (iff a2 a3) (iff a3 a4) (iff a4 a5)) (iff a1 a5))
  :rule-classes nil)

(defthm alike-6
  (implies (and (iff a1 a2) (iff a2 a3) (iff a3 a4) (iff a4 a5) (iff a5 a6)) (iff a1 a6))
  :rule-classes nil)

; Either part of each pair, so the one choice or the other at each place.
(defthm pairs-2
  (implies (and (or a1 b1) (or a2 b2)) (or (and a1 a2) b1 b2))
  :rule-classes nil)

(defthm pairs-3
  (implies (and (or a1 b1) (or a2 b2) (or a3 b3)) (or (and a1 a2 a3) b1 b2 b3))
  :rule-classes nil)

(defthm pairs-4
  (implies (and (or a1 b1) (or a2 b2) (or a3 b3) (or a4 b4)) (or (and a1 a2 a3 a4) b1 b2 b3 b4))
  :rule-classes nil)

(defthm pairs-5
  (implies (and (or a1 b1) (or a2 b2) (or a3 b3) (or a4 b4) (or a5 b5))
           (or (and a1 a2 a3 a4 a5) b1 b2 b3 b4 b5))
  :rule-classes nil)

; The exclusive-or of so many, grouped to the left and to the right.
(defun xr (x y)
  (if x (if y nil t) (if y t nil)))

(defthm groups-3
  (iff (xr (xr a1 a2) a3) (xr a1 (xr a2 a3)))
  :rule-classes nil)

(defthm groups-4
  (iff (xr (xr (xr a1 a2) a3) a4) (xr a1 (xr a2 (xr a3 a4))))
  :rule-classes nil)

(defthm groups-5
  (iff (xr (xr (xr (xr a1 a2) a3) a4) a5) (xr a1 (xr a2 (xr a3 (xr a4 a5)))))
  :rule-classes nil)

(defthm groups-6
  (iff (xr (xr (xr (xr (xr a1 a2) a3) a4) a5) a6) (xr a1 (xr a2 (xr a3 (xr a4 (xr a5 a6))))))
  :rule-classes nil)

; So many pigeons do not fit one less holes.
(defthm pigeons-2
  (not (and p11 p21 (not (and p11 p21))))
  :rule-classes nil)

(defthm pigeons-3
  (not (and (or p11 p12) (or p21 p22) (or p31 p32) (not (and p11 p21)) (not (and p11 p31)) (not (and p21 p31))
            (not (and p12 p22)) (not (and p12 p32)) (not (and p22 p32))))
  :rule-classes nil)

; Two numbers of so many bits have the same sum in either order: each bit of it, and the last carry.
(defun sum-bit (a b c)
  (xr a (xr b c)))

(defun carry (a b c)
  (if a (or b c) (and b c)))

(defthm adder-1
  (and (iff (sum-bit a0 b0 c0) (sum-bit b0 a0 c0)) (iff (carry a0 b0 c0) (carry b0 a0 c0)))
  :rule-classes nil)

; A choice by so many conditions, of the same thing in each case.
(defthm choice-4
  (equal (if a1 x (if a2 x (if a3 x (if a4 x x)))) x)
  :rule-classes nil)

(defthm choice-8
  (equal (if a1 x (if a2 x (if a3 x (if a4 x (if a5 x (if a6 x (if a7 x (if a8 x x)))))))) x)
  :rule-classes nil)

(defthm choice-16
  (equal (if a1 x
             (if a2 x
                 (if a3 x
                     (if a4 x
                         (if a5 x
                             (if a6 x
                                 (if a7 x
                                     (if a8 x
                                         (if a9 x
                                             (if a10 x
                                                 (if a11 x
                                                     (if a12 x
                                                         (if a13 x
                                                             (if a14 x (if a15 x (if a16 x x))))))))))))))))
         x)
  :rule-classes nil)
