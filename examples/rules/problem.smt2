(declare-width n 8)
(declare-const x (_ BitVec n))
(rewrite r1 (bvneg ((_ extract (- n 1) 0) ((_ zero_extend 4) x))) (bvneg x))
