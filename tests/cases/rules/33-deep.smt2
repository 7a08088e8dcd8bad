(declare-const a Bool)
(assert
(not (not (not (not (not (not (not (not (not (not (not (not (not (not (not (not (not (not (not (not (not (not (not (not (not (not (not (not (not (not (not (not (not (not (not (not (not (not (not (not (not (not (not (not (not (not (not (not (not (not (not (not (not (not (not (not (not (not (not (not (not (not (not (not (not a))))))))))))))))))))))))))))))))))))))))))))))))))))))))))))))))))
(check-sat)
