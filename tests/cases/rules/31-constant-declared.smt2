(declare-const true Bool)
(assert true)
(check-sat)
