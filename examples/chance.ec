(* Judgments with a probability: how likely a postcondition is after a procedure. *)

module M = {
  proc coin() : bool = { var x : bool; x <$ {0,1}; return x; }
  proc die() : int[6] = { var x : int[6]; x <$ uniform (int[6]); return x; }
  proc sure() : bool = { var x : bool; x <$ {0,1}; return x \/ !x; }
}.

lemma a_coin : phoare [M.coin : true ==> res] = 1%r / 2%r.
proof.
proc.
rnd.            (* what is left to say is that the measure of heads is one half *)
skip.
smt().
qed.

lemma a_die : phoare [M.die : true ==> res < 2] = 1%r / 3%r.
proof.
proc.
rnd.
skip.
smt().
qed.

lemma at_most : phoare [M.die : true ==> res = 5] <= 1%r / 5%r.
proof.
proc.
rnd.
skip.
smt().
qed.

lemma certain : phoare [M.sure : true ==> res] = 1%r.
proof.
hoare.          (* exactly 1: the postcondition always holds *)
proc.
rnd.
skip.
smt().
qed.
