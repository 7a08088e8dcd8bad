(declare-const a (_ BitVec 8))
(declare-const gauge Bool)
(assert (bvult
  (bvadd a gauge)
  a))
(check-sat)
