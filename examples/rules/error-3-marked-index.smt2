(declare-const list (Array (_ BitVec 8) (_ BitVec 8)))
(declare-const x1 (_ BitVec 8))
(assert (bvult (select list x1) #b01100100))
(check-sat)
