(declare-const raw (_ BitVec 8))
(declare-const table-A (Array (_ BitVec 8) (_ BitVec 8)))
(declare-const table-B (Array (_ BitVec 8) (_ BitVec 8)))
(declare-const x1 Bool)
(declare-const limit (_ BitVec 8))
(assert (bvult
  (bvadd raw (ite x1 (select table-A raw) (select table-B raw)))
  limit))
(check-sat)
