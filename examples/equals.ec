(* Equals for equals, and steps made of steps. *)

op is_zero (x : bits 4) : bool = x = 0.

lemma forward (p q : bool) : p = q => q => p.
proof.
move=> h k.
rewrite h.                      (* the right side of h takes the place of its left side *)
assumption.
qed.

lemma back (p q : bool) : (p <=> q) => p => q.
proof.
move=> h k.
rewrite -(h).                   (* the other way round; an equivalence will do *)
assumption.
qed.

lemma at_an_argument : (forall (x : bits 4), x +^ x = 0) => forall (y : bits 4), y +^ y = 0.
proof.
move=> h y.
rewrite (h y).                  (* what h says of y *)
trivial.                        (* 0 = 0 *)
qed.

lemma unfolded (x : bits 4) : x = 0 => is_zero x.
proof.
move=> h.
rewrite /is_zero.               (* the body of the operator takes its place *)
assumption.
qed.

lemma substituted (x y : bits 4) : x = y => is_zero y => is_zero x.
proof.
move=> h k.
subst h.                        (* x for y everywhere, in the hypothesis k too; h is used up *)
assumption.
qed.

lemma a_witness : exists (x : bits 4), is_zero x.
proof.
exists 0.
by rewrite /is_zero.            (* what is left, 0 = 0, is closed *)
qed.

lemma both_ways (p q : bool) : p /\ q <=> q /\ p.
proof.
split; move=> [h k]; split; assumption.       (* each step on each goal that the one before leaves *)
qed.

lemma distance (x y : int[5]) : x%r <= y%r => y%r <= x%r => `|x%r - y%r| <= 0%r.
proof.
move=> h k.
split; [linear (h) | linear (k)].             (* a step for each goal: the difference, and its negation *)
qed.

lemma by_cases (p : bool) : p \/ !p.
proof.
case (p); move=> h; [left | right]; assumption.
qed.

lemma repeated (p q : bool) : p => q => (p /\ q) /\ true.
proof.
move=> h k.
do 2! try split.                (* where there is nothing to split the goal stays *)
assumption.
assumption.
done.                           (* true is closed *)
qed.

op flipped (b : bool) : bool = !b.

module M = {
  proc f(a : bool) : bool = {
    var x : bool;
    x <- flipped a;
    return x;
  }
}.

lemma in_a_program (p : bool) : hoare [M.f : a = p ==> res = (!p)].
proof.
proc.
rewrite /flipped.               (* the program assigns !a *)
wp.
skip.
smt().
qed.
