; the corrected weight is below the limit
(declare-const raw (_ BitVec 8))
(assert (bvult raw #b01011010))
(check-sat)
