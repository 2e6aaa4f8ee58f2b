; Automatically created by SBV on 2026-11-28 04:54:29.430328799 UTC
(set-option :smtlib2_compliant true)
(set-option :diagnostic-output-channel "stdout")
(set-option :produce-models true)
(set-logic QF_BV)
; --- uninterpreted sorts ---
; --- tuples ---
; --- sums ---
; --- literal constants ---
(define-fun s2 () (_ BitVec 16) #x0000)
(define-fun s9 () (_ BitVec 16) #x0001)
(define-fun s11 () (_ BitVec 16) (bvneg #x0001))
; --- skolem constants ---
(declare-fun s0 () (_ BitVec 16))
(declare-fun s1 () (_ BitVec 16))
; --- constant tables ---
; --- skolemized tables ---
; --- arrays ---
; --- uninterpreted constants ---
; --- user given axioms ---
; --- preQuantifier assignments ---
(define-fun s3 () Bool (distinct s1 s2))
(define-fun s4 () Bool (not s3))
(define-fun s5 () Bool (= s1 s2))
(define-fun s6 () (_ BitVec 16) (bvsrem s0 s1))
(define-fun s7 () (_ BitVec 16) (ite s5 s0 s6))
(define-fun s8 () Bool (bvsgt s7 s2))
(define-fun s10 () Bool (bvslt s7 s2))
(define-fun s12 () (_ BitVec 16) (ite s10 s11 s7))
(define-fun s13 () (_ BitVec 16) (ite s8 s9 s12))
(define-fun s14 () Bool (bvsgt s1 s2))
(define-fun s15 () Bool (bvslt s1 s2))
(define-fun s16 () (_ BitVec 16) (ite s15 s11 s1))
(define-fun s17 () (_ BitVec 16) (ite s14 s9 s16))
(define-fun s18 () (_ BitVec 16) (bvneg s17))
(define-fun s19 () Bool (= s13 s18))
(define-fun s20 () (_ BitVec 16) (bvsdiv s0 s1))
(define-fun s21 () (_ BitVec 16) (ite s5 s2 s20))
(define-fun s22 () (_ BitVec 16) (bvsub s21 s9))
(define-fun s23 () (_ BitVec 16) (ite s19 s22 s21))
(define-fun s24 () (_ BitVec 16) (ite s5 s2 s23))
(define-fun s25 () (_ BitVec 16) (bvmul s1 s24))
(define-fun s26 () (_ BitVec 16) (bvadd s1 s7))
(define-fun s27 () (_ BitVec 16) (ite s19 s26 s7))
(define-fun s28 () (_ BitVec 16) (ite s5 s0 s27))
(define-fun s29 () (_ BitVec 16) (bvadd s25 s28))
(define-fun s30 () Bool (= s0 s29))
(define-fun s31 () Bool (or s4 s30))
; --- arrayDelayeds ---
; --- arraySetups ---
; --- formula ---
; --- postQuantifier assignments ---
; --- delayedEqualities ---
; -- finalAssert ---
(assert (not s31))
(check-sat)
