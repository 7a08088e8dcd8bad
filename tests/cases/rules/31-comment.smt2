; the weight is below the limit
(declare-const a Bool)
(assert a)
(check-sat)
