(declare-const raw (_ BitVec 8))
(check-sat)
