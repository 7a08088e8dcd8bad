(declare-const select Bool)
(assert true)
(check-sat)
