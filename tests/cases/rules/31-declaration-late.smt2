(declare-const a Bool)
(assert a)
(declare-const b Bool)
(check-sat)
