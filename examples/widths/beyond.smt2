(declare-width n 8)
(declare-const x (_ BitVec n))
(rewrite r1 ((_ extract n 0) x) x)
