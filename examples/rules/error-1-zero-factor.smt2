(declare-const load (_ BitVec 8))
(declare-const x1 (_ BitVec 8))
(assert (bvult (bvmul load x1) #b00001010))
(check-sat)
