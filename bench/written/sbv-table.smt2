; Automatically created by SBV on 2026-11-28 04:54:29.431317753 UTC
(set-option :smtlib2_compliant true)
(set-option :diagnostic-output-channel "stdout")
(set-option :produce-models true)
(set-logic QF_UFBV)
; --- uninterpreted sorts ---
; --- tuples ---
; --- sums ---
; --- literal constants ---
(define-fun s1 () (_ BitVec 8) #x03)
(define-fun s2 () (_ BitVec 8) #x01)
(define-fun s3 () (_ BitVec 8) #x04)
(define-fun s4 () (_ BitVec 8) #x05)
(define-fun s5 () (_ BitVec 8) #x09)
(define-fun s6 () (_ BitVec 8) #x02)
(define-fun s7 () (_ BitVec 8) #x06)
(define-fun s8 () (_ BitVec 8) #x00)
; --- skolem constants ---
(declare-fun s0 () (_ BitVec 8))
; --- constant tables ---
(declare-fun table0 ((_ BitVec 8)) (_ BitVec 8))
(define-fun table0_initializer_0 () Bool (= (table0 #x00) s1))
(define-fun table0_initializer_1 () Bool (= (table0 #x01) s2))
(define-fun table0_initializer_2 () Bool (= (table0 #x02) s3))
(define-fun table0_initializer_3 () Bool (= (table0 #x03) s2))
(define-fun table0_initializer_4 () Bool (= (table0 #x04) s4))
(define-fun table0_initializer_5 () Bool (= (table0 #x05) s5))
(define-fun table0_initializer_6 () Bool (= (table0 #x06) s6))
(define-fun table0_initializer_7 () Bool (= (table0 #x07) s7))
(define-fun table0_initializer () Bool (and table0_initializer_0 table0_initializer_1 table0_initializer_2 table0_initializer_3 table0_initializer_4 table0_initializer_5 table0_initializer_6 table0_initializer_7))
(assert table0_initializer)
; --- skolemized tables ---
; --- arrays ---
; --- uninterpreted constants ---
; --- user given axioms ---
; --- preQuantifier assignments ---
(define-fun s9 () (_ BitVec 8) (ite (bvule #x08 s0) s8 (table0 s0)))
(define-fun s10 () Bool (= s5 s9))
; --- arrayDelayeds ---
; --- arraySetups ---
; --- formula ---
; --- postQuantifier assignments ---
; --- delayedEqualities ---
; -- finalAssert ---
(assert s10)
(check-sat)
