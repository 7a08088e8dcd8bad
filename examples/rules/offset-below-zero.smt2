(declare-const x1 (_ BitVec 8))
(assert (bvult x1 #b00000000))
(check-sat)
