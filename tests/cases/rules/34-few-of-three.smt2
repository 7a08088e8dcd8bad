(declare-const a (_ BitVec 8))
(declare-const b (_ BitVec 8))
(assert (= a (ite (bvult a b) (bvadd a b))))
(check-sat)
