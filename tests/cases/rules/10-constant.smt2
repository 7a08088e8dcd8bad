(assert #b1)
(check-sat)
