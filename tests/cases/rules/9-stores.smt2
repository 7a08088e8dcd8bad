(declare-const t (Array (_ BitVec 8) (_ BitVec 8)))
(declare-const i (_ BitVec 8))
(assert (= i (select
  (store (store (store (store (store (store (store (store (store (store (store (store (store (store (store (store (store t i i) i i) i i) i i) i i) i i) i i) i i) i i) i i) i i) i i) i i) i i) i i) i i) i i)
  i)))
(check-sat)
