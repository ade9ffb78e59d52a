(* Comparisons of reals that stated multiples of hypotheses give. *)

(* x - z, and behind it y - x and z - y, is 0. *)
lemma chain : forall (x y z : int[5]), x%r <= y%r => y%r <= z%r => x%r <= z%r.
proof. move=> x y z H K. linear (H, K). qed.

(* Half of each hypothesis gives half of the sum. *)
lemma halves : forall (x y u v : bits 3), mu1 (uniform (bits 3)) x <= mu1 (uniform (bits 3)) y =>
  mu1 (uniform (bits 3)) u <= mu1 (uniform (bits 3)) v =>
  (mu1 (uniform (bits 3)) x + mu1 (uniform (bits 3)) u) / 2%r <= (mu1 (uniform (bits 3)) y + mu1 (uniform (bits 3)) v) / 2%r.
proof. move=> x y u v H K. linear (1 / 2 * H, 1 / 2 * K). qed.

(* An equation may stand either way round. *)
lemma turned : forall (x y : int[5]), x%r = y%r => y%r = x%r.
proof. move=> x y H. linear (- 1 * H). qed.

lemma quarters : 1%r / 4%r + 1%r / 4%r <= 1%r / 2%r.
proof. linear (). qed.
