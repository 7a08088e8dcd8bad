(declare-const a Bool)
(assert (not 