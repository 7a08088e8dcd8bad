(declare-const a (_ BitVec 8))
(assert (bvslt (bvsub a) a))
(check-sat)
