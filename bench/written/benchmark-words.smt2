(set-info :smt-lib-version 2.6)
(set-logic QF_BV)
(set-info :source |
Written by hand in the form of the benchmarks of SMT-LIB: (a text between bars) that goes over
lines, with "quotes", an open ( and a ; that begins no comment.
|)
(set-info :license "https://creativecommons.org/licenses/by/4.0/")
(set-info :category "crafted")
(set-info :status unsat)
(declare-fun v0 () (_ BitVec 32))
(declare-fun v1 () (_ BitVec 32))
(declare-fun a!b () Bool)
(assert (let ((?v_0 (bvadd v0 v1)) (?v_1 ((_ extract 15 0) v0)) (?v_2 ((_ sign_extend 16) ((_ extract 15 0) v1))))
 (let ((?v_3 (bvxor ?v_0 ((_ zero_extend 16) ?v_1))) (?v_4 (concat ?v_1 ((_ extract 31 16) v1))))
  (let ((?v_5 (bvmul ?v_3 ?v_4)) (cse_0 (bvslt ?v_2 (_ bv10 32))) ($x1 (bvuge ?v_0 ((_ rotate_left 3) ?v_4))))
   (and (or cse_0 (not $x1) a!b) (=> a!b (= ?v_5 (bvneg ?v_5))) (not (= ((_ repeat 2) ?v_1) (bvsub ?v_5 (_ bv1 32))))
    (distinct ?v_3 ?v_4 ?v_5) (= (bvcomp ?v_3 ?v_5) ((_ extract 0 0) ?v_0)) (ite $x1 (bvule v0 v1) (xor cse_0 a!b)))))))
(check-sat)
(exit)
