(declare-const a (_ BitVec 8))
(declare-const gauge Bool)
(assert (bvslt
  a (bvashr a gauge)))
(check-sat)
