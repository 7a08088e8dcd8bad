(declare-const a Bool)
(declare-const b Bool)
(assert a b)
(check-sat)
