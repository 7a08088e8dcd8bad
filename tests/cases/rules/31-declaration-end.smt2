(declare-const a Bool 8)
(assert a)
(check-sat)
