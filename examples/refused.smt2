(assert (= #x05 #x001))
(check-sat)
