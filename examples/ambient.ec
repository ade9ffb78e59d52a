(* Patterns take off what stands in front of a conclusion. *)

lemma taken : forall (x y : bool), x => y => x.
proof.
move=> x y hx hy.       (* two variables and two hypotheses enter the context *)
assumption.             (* the conclusion is the hypothesis hx *)
qed.

lemma dropped : forall (x y : bool), x => y => x.
proof.
move=> x y hx _.        (* the second premise is dropped *)
assumption.
qed.

lemma both_sides : forall (x y : bool), x /\ y => x.
proof.
move=> x y [hx hy].     (* a conjunction as two hypotheses *)
assumption.
qed.

lemma a_witness : (exists (x : bool), x /\ !x) => false.
proof.
move=> [x [hx hn]].     (* a value that is said to exist, and both sides of what is said of it *)
smt().
qed.

lemma one_side : forall (x y : bool), x \/ y => y \/ x.
proof.
move=> x y [hx | hy].   (* two goals, one for each side *)
right. assumption.
left. assumption.
qed.

lemma closed : forall (x y : bool), x => x /\ (y <=> y).
proof.
trivial.                (* what stands in front enters the context; x is a hypothesis, and y <=> y needs none *)
qed.

lemma a_negation : forall (x : bool), exists (y : bool), y <=> !x.
proof.
move=> x.
by exists (!x).         (* what is left, !x <=> !x, is closed *)
qed.

lemma used : forall (p : bool), (forall (b c : bool), b = c => p) => p.
proof.
move=> p h.
have k := h true.       (* what a hypothesis says of a value is a hypothesis *)
apply (k true).         (* it says the conclusion, under a premise *)
smt().
qed.
