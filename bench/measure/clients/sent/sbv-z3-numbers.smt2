(set-option :print-success true)
(set-option :global-declarations true)
(set-option :smtlib2_compliant true)
(set-option :diagnostic-output-channel "stdout")
(set-option :produce-models true)
(set-logic ALL) ; has unbounded values, using catch-all.
(define-fun s1 () Int 2)
(define-fun s3 () Int 10)
(declare-fun s0 () Int)
(define-fun s2 () Int (* s0 s1))
(define-fun s4 () Bool (= s2 s3))
(assert s4)
(check-sat)

