(declare-const a (Array Bool (_ BitVec 8)))
(assert true)
(check-sat)
