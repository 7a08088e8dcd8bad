(declare-const 8a Bool)
(assert true)
(check-sat)
