(declare-const a (_ BitVec 8))
(declare-const gauge Bool)
(assert (bvult (bvadd gauge a) a))
(check-sat)
