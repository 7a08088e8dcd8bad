(declare-const raw (_ BitVec 8))
(declare-const limit (_ BitVec 8))
(assert (bvult (bvadd raw) limit))
(check-sat)
