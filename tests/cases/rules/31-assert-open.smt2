(declare-const a Bool)
(assert (not a)
(check-sat)
