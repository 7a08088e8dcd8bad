(declare-const limit (_ BitVec 8))
(assert (bvult gauge limit))
(check-sat)
