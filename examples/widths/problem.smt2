(declare-width n 8)
(declare-const x (_ BitVec n))
(rewrite r1 ((_ extract (- n 1) 0) (concat (_ bv3 2) x)) ((_ extract (- n 1) 0) (concat #b11 x)))
