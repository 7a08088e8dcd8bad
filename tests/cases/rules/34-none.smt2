(declare-const a Bool)
(assert (not))
(check-sat)
