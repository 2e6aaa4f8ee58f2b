(set-option :print-success true)
(set-option :global-declarations true)
(set-option :smtlib2_compliant true)
(set-option :diagnostic-output-channel "stdout")
(set-option :produce-models true)
(set-logic BV)
(define-fun s3 () (_ BitVec 8) #xff)
(declare-fun s0 () (_ BitVec 8)) ; tracks user variable "x"
(assert (forall ((s1 (_ BitVec 8)))
; --- postQuantifier assignments ---
            (let ((s2 (bvult s0 s1)))
            (let ((s4 (= s0 s3)))
            (let ((s5 (or s2 s4)))
; --- delayedEqualities ---
; -- finalAssert ---
            (not s5))))))

(check-sat)
