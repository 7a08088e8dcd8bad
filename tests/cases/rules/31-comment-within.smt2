(declare-const a Bool)
(assert a) ; the rule
(check-sat)
