(declare-const a (_ BitVec 8))
(assert a)
(check-sat)
