(* Steps on conclusions take a form apart; smt closes what is left of it by trying all values. *)

lemma parts : (true /\ !false) /\ (true \/ false).
proof.
split.                (* a conjunction: two goals, the left side first *)
split. smt(). smt().
left. smt().          (* one side of a disjunction is to be shown *)
qed.

lemma cases : forall (x : bool), x \/ !x.
proof.
case (true).          (* where the form is true, and where it isn't: a premise of each goal *)
smt().
smt().
qed.

lemma shown : true.
proof.
have H : true.        (* a form is shown first, and is a hypothesis then *)
smt().
assumption.           (* the conclusion is a hypothesis *)
qed.
