(set-option :print-success true)
(set-option :global-declarations true)
(set-option :smtlib2_compliant true)
(set-option :diagnostic-output-channel "stdout")
(set-option :produce-models true)
(set-logic BV)
(declare-fun s0 () (_ BitVec 16)) ; tracks user variable "x"
(assert (forall ((s1 (_ BitVec 16)))
; --- postQuantifier assignments ---
            (let ((s2 (bvuge s0 s1)))
; --- delayedEqualities ---
; -- finalAssert ---
            s2)))

(check-sat)
(get-value (s0))
