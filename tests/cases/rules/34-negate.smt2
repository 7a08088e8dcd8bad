(declare-const a (_ BitVec 8))
(declare-const b (_ BitVec 8))
(assert (bvslt (bvneg a b) b))
(check-sat)
