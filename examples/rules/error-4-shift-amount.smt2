(declare-const x1 (_ BitVec 8))
(declare-const amount (_ BitVec 8))
(assert (= (bvshl x1 amount) #b00000000))
(check-sat)
