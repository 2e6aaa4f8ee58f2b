(set-option :print-success true)
(set-option :global-declarations true)
(set-option :smtlib2_compliant true)
(set-option :diagnostic-output-channel "stdout")
(set-option :produce-models true)
(set-logic BV)
(define-fun s5 () (_ BitVec 4) #x5)
(declare-fun s0 () (_ BitVec 4)) ; tracks user variable "x"
(declare-fun s2 ((_ BitVec 4)) (_ BitVec 4)) ; tracks user variable "z"
(assert (forall ((s1 (_ BitVec 4)))
; --- postQuantifier assignments ---
            (let ((s3 (bvxor s0 s1)))
            (let ((s4 (bvadd (s2 s1) s3)))
            (let ((s6 (= s4 s5)))
; --- delayedEqualities ---
; -- finalAssert ---
            s6)))))

(check-sat)


(echo "terminating upon unexpected response (at: 2026-11-29 09:51:43.038902912 UTC)")
