(declare-const shut Bool)
(declare-const x1 (_ BitVec 8))
(assert (= (ite shut #b00000000 x1) #b00000000))
(check-sat)
