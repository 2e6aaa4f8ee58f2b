(set-option :print-success true)
(set-option :global-declarations true)
(set-option :smtlib2_compliant true)
(set-option :diagnostic-output-channel "stdout")
(set-option :produce-models true)
(set-logic BV)
(define-fun s3 () (_ BitVec 8) #x10)
(define-fun s5 () (_ BitVec 8) #x00)
(define-fun s7 () (_ BitVec 8) #x01)
(define-fun s9 () (_ BitVec 8) #xff)
(declare-fun s0 () (_ BitVec 8)) ; tracks user variable "m"
(assert (forall ((s1 (_ BitVec 8)))
; --- postQuantifier assignments ---
            (let ((s2 (bvand s0 s1)))
            (let ((s4 (bvurem s1 s3)))
            (let ((s6 (bvugt s4 s5)))
            (let ((s8 (ite s6 s7 s4)))
            (let ((s10 (= s8 s9)))
            (let ((s11 (bvadd s3 s4)))
            (let ((s12 (ite s10 s11 s4)))
            (let ((s13 (= s2 s12)))
; --- delayedEqualities ---
; -- finalAssert ---
            s13))))))))))

(check-sat)
(get-value (s0))
