(declare-const a (_ BitVec 8))
(declare-const b (_ BitVec 8))
(assert (bvult (bvudiv a b) a))
(check-sat)
