(declare-const exit Bool)
(assert exit)
(check-sat)
