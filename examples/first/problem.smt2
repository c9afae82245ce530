(declare-const x (_ BitVec 8))
(rewrite r1 (bvadd x (bvmul #x03 #x05)) (bvadd x #x0f))
