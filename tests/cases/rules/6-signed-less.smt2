(declare-const gauge Bool)
(assert (bvslt gauge gauge))
(check-sat)
