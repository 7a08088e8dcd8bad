(declare-const a (_ BitVec 8))
(declare-const b (_ BitVec 8))
(assert (bvult a b (bvadd a b)))
(check-sat)
