(assert (= (bvadd #x05 #x03) #x08))
(check-sat)
(assert (= (bvudiv #x05 #x00) #xfe))
(check-sat)
