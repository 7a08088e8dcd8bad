(declare-const a Bool)
(assert (not a a))
(check-sat)
