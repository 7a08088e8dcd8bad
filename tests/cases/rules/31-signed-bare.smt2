(declare-const a (_ BitVec 8))
(assert (bvslt a bvashr))
(check-sat)
