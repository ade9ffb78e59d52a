(* Two procedures that flip a coin, the right one negated, have the same results: each outcome of the left coin is
   coupled with its negation on the right, so a coupling of both with equal results exists. *)

module M = { proc f() : bool = { var x : bool; x <$ {0,1}; return x; } }.
module N = { proc f() : bool = { var x : bool; x <$ {0,1}; return !x; } }.

lemma flip : equiv [M.f ~ N.f : true ==> ={res}].
proof.
proc.                  (* from the procedures to their bodies *)
rnd (fun v => !v).     (* couple the two samplings along the negation, which is its own inverse *)
skip.                  (* no statement is left: an ambient goal *)
smt().                 (* closed by trying both values *)
qed.
