(* Lemmas are used in what comes after them. *)

lemma weaker (p q : bool) : p => p \/ q.
proof.
move=> h. left. assumption.
qed.

lemma a_premise (x y : bits 4) : x = y => x = y \/ y = 0.
proof.
move=> h.
apply (weaker (x = y) (y = 0)).     (* the conclusion is what the lemma says of two forms; its premise is left *)
assumption.
qed.

lemma no_premise (x y : bits 4) : x = y => x = y \/ y = 0.
proof.
apply (weaker (x = y) (y = 0)).     (* here the conclusion has the premise in front *)
qed.

lemma kept (x : bool) : (true \/ x) /\ (true \/ x).
proof.
have k := weaker true x.            (* what the lemma says becomes a hypothesis *)
split; apply (k); trivial.
qed.

module Turn = {
  proc turn(a : bool) : bool = { return !a; }
}.

lemma turned (b : bool) : hoare [Turn.turn : a = b ==> res = (!b)].
proof. proc. wp. skip. smt(). qed.

lemma turned_back (b : bool) : hoare [Turn.turn : a = (!b) ==> res = (!(!b))].
proof.
apply (turned (!b)).                (* a judgment about each value says something of this one *)
qed.
