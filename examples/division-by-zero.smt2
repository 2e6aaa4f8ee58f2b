(assert (= (bvudiv #x05 #x00) #xff))
(check-sat)
