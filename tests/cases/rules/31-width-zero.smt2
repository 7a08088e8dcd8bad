(declare-const a (Array (_ BitVec 8) (_ BitVec 08)))
(assert true)
(check-sat)
