; Binary trees: conses, and what is no cons is a leaf. Then search trees of integers.
(in-package "ACL2")

(defun app (x y)
  (if (consp x) (cons (car x) (app (cdr x) y)) y))

(defthm app-assoc
  (equal (app (app x y) z) (app x (app y z))))

(defthm len-app
  (equal (len (app x y)) (+ (len x) (len y))))

(defun rev (x)
  (if (consp x) (app (rev (cdr x)) (cons (car x) nil)) nil))

(defthm app-nil
  (implies (true-listp x) (equal (app x nil) x)))

(defthm true-listp-rev
  (true-listp (rev x)))

(defthm rev-app
  (equal (rev (app x y)) (app (rev y) (rev x))))

(defun mirror (x)
  (if (consp x) (cons (mirror (cdr x)) (mirror (car x))) x))

(defthm mirror-mirror
  (equal (mirror (mirror x)) x))

(defun leaves (x)
  (if (consp x) (+ (leaves (car x)) (leaves (cdr x))) 1))

(defun nodes (x)
  (if (consp x) (+ 1 (nodes (car x)) (nodes (cdr x))) 0))

(defun depth (x)
  (if (consp x) (+ 1 (max (depth (car x)) (depth (cdr x)))) 0))

(defthm leaves-mirror
  (equal (leaves (mirror x)) (leaves x)))

(defthm nodes-mirror
  (equal (nodes (mirror x)) (nodes x)))

(defthm depth-mirror
  (equal (depth (mirror x)) (depth x)))

(defthm leaves-and-nodes
  (equal (leaves x) (+ 1 (nodes x)))
  :rule-classes nil)

(defthm depth-below-nodes
  (<= (depth x) (nodes x))
  :rule-classes :linear)

(defun fringe (x)
  (if (consp x) (app (fringe (car x)) (fringe (cdr x))) (cons x nil)))

(defthm true-listp-fringe
  (true-listp (fringe x)))

(defthm consp-fringe
  (consp (fringe x)))

(defthm len-fringe
  (equal (len (fringe x)) (leaves x)))

(defthm fringe-mirror
  (equal (fringe (mirror x)) (rev (fringe x))))

; In acl2p no call of a function itself may stand in a test, and so within `and` and `or` only in the last place.
(defun both (p q) (if p q nil))
(defun either (p q) (if p p q))

(defun leaf-of (a x)
  (if (consp x) (either (leaf-of a (car x)) (leaf-of a (cdr x))) (equal a x)))

(defun mem (a x)
  (if (consp x) (or (equal a (car x)) (mem a (cdr x))) nil))

(defthm mem-app
  (iff (mem a (app x y)) (or (mem a x) (mem a y))))

(defthm mem-fringe
  (iff (mem a (fringe x)) (leaf-of a x)))

(defun replaced (new old x)
  (if (consp x)
      (cons (replaced new old (car x)) (replaced new old (cdr x)))
    (if (equal x old) new x)))

(defthm replaced-same
  (equal (replaced a a x) x))

(defthm replaced-absent
  (implies (not (leaf-of old x)) (equal (replaced new old x) x)))

(defthm mirror-replaced
  (implies (atom new)
           (equal (mirror (replaced new old x)) (replaced new old (mirror x)))))

(defthm leaves-replaced
  (implies (atom new) (equal (leaves (replaced new old x)) (leaves x))))

; Search trees: nil, or (key left . right).
(defun key (x) (car x))
(defun left (x) (car (cdr x)))
(defun right (x) (cdr (cdr x)))
(defun node (k l r) (cons k (cons l r)))

(defun put (a x)
  (if (consp x)
      (if (< a (key x))
          (node (key x) (put a (left x)) (right x))
        (if (< (key x) a)
            (node (key x) (left x) (put a (right x)))
          x))
    (node a nil nil)))

(defun below (x b)
  (if (consp x) (and (< (key x) b) (both (below (left x) b) (below (right x) b))) t))

(defun above (x b)
  (if (consp x) (and (< b (key x)) (both (above (left x) b) (above (right x) b))) t))

(defun search-tree (x)
  (if (consp x)
      (and (integerp (key x))
           (below (left x) (key x))
           (above (right x) (key x))
           (both (search-tree (left x)) (search-tree (right x))))
    t))

(defun has (a x)
  (if (consp x)
      (if (< a (key x)) (has a (left x)) (if (< (key x) a) (has a (right x)) t))
    nil))

(defun somewhere (a x)
  (if (consp x) (or (equal a (key x)) (either (somewhere a (left x)) (somewhere a (right x)))) nil))

(defthm below-put
  (implies (and (below x b) (< a b)) (below (put a x) b)))

(defthm above-put
  (implies (and (above x b) (< b a)) (above (put a x) b)))

(defthm below-all
  (implies (and (below x b) (somewhere a x)) (< a b))
  :rule-classes nil)
