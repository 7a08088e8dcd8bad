(declare-const bvneg (_ BitVec 8))
(assert true)
(check-sat)
