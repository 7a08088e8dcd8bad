(declare-const a (_ BitVec 8))
(assert (= a #b1))
(check-sat)
