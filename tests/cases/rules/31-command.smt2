(set-logic QF_ABV)
(declare-const a Bool)
(assert a)
(check-sat)
