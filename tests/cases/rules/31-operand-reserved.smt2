(declare-const a Bool)
(assert (not assert))
(check-sat)
