(set-option :print-success true)
(declare-const x (_ BitVec 8))
(assert (= (bvand x #x33) #x11))
(assert (bvult (bvand x #x88) #x01))
(check-sat)

(assert (distinct x #x11))
(check-sat)

(assert (distinct x #x15))
(check-sat)

(assert (distinct x #x55))
(check-sat)
(get-value (x))
(assert (distinct x #x51))
(check-sat)
