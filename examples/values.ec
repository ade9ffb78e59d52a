(* Types, operators, exact fractions and finite distributions, without a program. `smt` tries the values of the
   variables; fractions are exact. *)

type colour = [Red | Green | Blue].
type card = colour * int[13].

lemma colours (c : colour) : c = Red \/ c = Green \/ c = Blue.
proof.
smt().
qed.

lemma cards (c : card) : c = (c.`1, c.`2).
proof.
smt().
qed.

lemma around (x : int[5]) : x + 4 = x - 1.
proof.
smt().
qed.

lemma masks (x y : bits 4) : (x +^ y) +^ y = x.
proof.
smt().
qed.

lemma coin (b : bool) : mu1 {0,1} b = 1%r / 2%r.
proof.
smt().
qed.

lemma coins : mu1 ({0,1} `*` {0,1}) (true, false) = 1%r / 4%r.
proof.
smt().
qed.

lemma die (x : int[6]) : mu1 (uniform int[6]) x < 1%r / 5%r.
proof.
smt().
qed.

lemma fractions : 1%r / 2%r + 1%r / 3%r = 5%r / 6%r.
proof.
smt().
qed.
