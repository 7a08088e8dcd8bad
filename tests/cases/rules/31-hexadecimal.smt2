(declare-const a (_ BitVec 8))
(declare-const b (_ BitVec 8))
(assert (= a #x05))
(check-sat)
