(declare-const a (_ BitVec 33))
(assert (= a a))
(check-sat)
