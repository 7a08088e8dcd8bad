(declare-const a (BitVec 8))
(assert (= a a))
(check-sat)
