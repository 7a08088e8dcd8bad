(declare-const x1 (_ BitVec 8))
(assert (or (bvult x1 #b00000101) (not (bvult x1 #b00000101))))
(check-sat)
