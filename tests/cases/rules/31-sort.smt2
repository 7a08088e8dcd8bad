(declare-const a Int)
(assert (= a a))
(check-sat)
