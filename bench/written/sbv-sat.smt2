; Automatically created by SBV on 2026-11-28 04:54:29.427957969 UTC
(set-option :smtlib2_compliant true)
(set-option :diagnostic-output-channel "stdout")
(set-option :produce-models true)
(set-logic QF_BV)
; --- uninterpreted sorts ---
; --- tuples ---
; --- sums ---
; --- literal constants ---
(define-fun s3 () (_ BitVec 8) #x2a)
(define-fun s7 () (_ BitVec 1) #b0)
(define-fun s9 () (_ BitVec 8) #x01)
(define-fun s10 () (_ BitVec 8) #x00)
; --- skolem constants ---
(declare-fun s0 () (_ BitVec 8))
(declare-fun s1 () (_ BitVec 8))
; --- constant tables ---
; --- skolemized tables ---
; --- arrays ---
; --- uninterpreted constants ---
; --- user given axioms ---
; --- preQuantifier assignments ---
(define-fun s2 () (_ BitVec 8) (bvmul s0 s1))
(define-fun s4 () Bool (= s2 s3))
(define-fun s5 () Bool (bvugt s0 s1))
(define-fun s6 () (_ BitVec 1) ((_ extract 0 0) s0))
(define-fun s8 () Bool (distinct s6 s7))
(define-fun s11 () (_ BitVec 8) (ite s8 s9 s10))
(define-fun s12 () (_ BitVec 1) ((_ extract 1 1) s0))
(define-fun s13 () Bool (distinct s7 s12))
(define-fun s14 () (_ BitVec 8) (ite s13 s9 s10))
(define-fun s15 () (_ BitVec 8) (bvadd s11 s14))
(define-fun s16 () (_ BitVec 1) ((_ extract 2 2) s0))
(define-fun s17 () Bool (distinct s7 s16))
(define-fun s18 () (_ BitVec 8) (ite s17 s9 s10))
(define-fun s19 () (_ BitVec 8) (bvadd s15 s18))
(define-fun s20 () (_ BitVec 1) ((_ extract 3 3) s0))
(define-fun s21 () Bool (distinct s7 s20))
(define-fun s22 () (_ BitVec 8) (ite s21 s9 s10))
(define-fun s23 () (_ BitVec 8) (bvadd s19 s22))
(define-fun s24 () (_ BitVec 1) ((_ extract 4 4) s0))
(define-fun s25 () Bool (distinct s7 s24))
(define-fun s26 () (_ BitVec 8) (ite s25 s9 s10))
(define-fun s27 () (_ BitVec 8) (bvadd s23 s26))
(define-fun s28 () (_ BitVec 1) ((_ extract 5 5) s0))
(define-fun s29 () Bool (distinct s7 s28))
(define-fun s30 () (_ BitVec 8) (ite s29 s9 s10))
(define-fun s31 () (_ BitVec 8) (bvadd s27 s30))
(define-fun s32 () (_ BitVec 1) ((_ extract 6 6) s0))
(define-fun s33 () Bool (distinct s7 s32))
(define-fun s34 () (_ BitVec 8) (ite s33 s9 s10))
(define-fun s35 () (_ BitVec 8) (bvadd s31 s34))
(define-fun s36 () (_ BitVec 1) ((_ extract 7 7) s0))
(define-fun s37 () Bool (distinct s7 s36))
(define-fun s38 () (_ BitVec 8) (ite s37 s9 s10))
(define-fun s39 () (_ BitVec 8) (bvadd s35 s38))
(define-fun s40 () Bool (= s1 s39))
(define-fun s41 () Bool (and s5 s40))
(define-fun s42 () Bool (and s4 s41))
; --- arrayDelayeds ---
; --- arraySetups ---
; --- formula ---
; --- postQuantifier assignments ---
; --- delayedEqualities ---
; -- finalAssert ---
(assert s42)
(check-sat)
