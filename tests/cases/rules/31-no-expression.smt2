(declare-const a Bool)
(assert)
(check-sat)
