(set-option :print-success true)
(set-option :global-declarations true)
(set-option :smtlib2_compliant true)
(set-option :diagnostic-output-channel "stdout")
(set-option :produce-models true)
(set-logic QF_BV)
(define-fun s12 () (_ BitVec 8) #x64)
(declare-fun s0 () (_ BitVec 8)) ; tracks user variable "a"
(declare-fun s1 () (_ BitVec 8)) ; tracks user variable "b"
(declare-fun s2 () (_ BitVec 8)) ; tracks user variable "c"
(declare-fun s3 () (_ BitVec 8)) ; tracks user variable "d"
(define-fun s4 () Bool (bvult s0 s1))
(define-fun s5 () Bool (bvult s1 s2))
(define-fun s6 () Bool (bvult s2 s3))
(define-fun s7 () Bool (and s5 s6))
(define-fun s8 () Bool (and s4 s7))
(define-fun s9 () (_ BitVec 8) (bvadd s0 s1))
(define-fun s10 () (_ BitVec 8) (bvadd s2 s9))
(define-fun s11 () (_ BitVec 8) (bvadd s3 s10))
(define-fun s13 () Bool (= s11 s12))
(define-fun s14 () Bool (and s8 s13))
(assert s14)
(check-sat)




