; Automatically created by SBV on 2026-11-28 04:54:29.431754367 UTC
(set-option :smtlib2_compliant true)
(set-option :diagnostic-output-channel "stdout")
(set-option :produce-models true)
(set-logic BV)
; --- uninterpreted sorts ---
; --- tuples ---
; --- sums ---
; --- literal constants ---
(define-fun s3 () (_ BitVec 8) #x00)
; --- skolem constants ---
(declare-fun s0 () (_ BitVec 8)) ; tracks user variable "x"
; --- constant tables ---
; --- skolemized tables ---
; --- arrays ---
; --- uninterpreted constants ---
; --- user given axioms ---
; --- preQuantifier assignments ---
; --- arrayDelayeds ---
; --- arraySetups ---
; --- formula ---
(assert (forall ((s1 (_ BitVec 8)))
; --- postQuantifier assignments ---
            (let ((s2 (bvadd s0 s1)))
            (let ((s4 (= s2 s3)))
; --- delayedEqualities ---
; -- finalAssert ---
            (not s4)))))
(check-sat)
