(declare-const measured (_ BitVec 8))
(declare-const target (_ BitVec 8))
(declare-const x1 (_ BitVec 8))
(declare-const limit (_ BitVec 8))
(assert (and
  (bvslt (bvneg limit) (bvashr (bvsub measured target) x1))
  (bvslt (bvashr (bvsub measured target) x1) limit)))
(check-sat)
