(declare-const let Bool)
(assert let)
(check-sat)
