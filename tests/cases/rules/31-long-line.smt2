(declare-const a Bool)
(assert (or (or (or (or (or (or a a) a) a) a) a) (or (or (or (or (or a a) a) a) a) #x1)) (or (or (or (or (or (or a a) a) a) a) a) a))
(check-sat)
