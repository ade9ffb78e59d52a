(* Games that are the same until something fails. A server picks a fresh key for each guess, so none is worth much; but how often an
   adversary guesses isn't known. Beside a server that always says no, it can tell them apart only where a guess would have been right,
   and this is an event of the second game. *)

type key = bits 8.

module type Oracle = { proc test(x : key) : bool }.
module type Adversary (O : Oracle) = { proc run() : bool {O.test} }.

(* It tells whether a guess is right. *)
module Server = { proc test(x : key) : bool = { var y : key; y <$ uniform key; return x = y; } }.

(* It never does, and notes in `bad` that it should have. *)
module Silent = { var bad : bool
  proc test(x : key) : bool = { var y : key; y <$ uniform key; if (x = y) { bad <- true; } return false; }
}.

module Real (A : Adversary) = { proc main() : bool = { var b : bool; b <@ A(Server).run(); return b; } }.
module Ideal (A : Adversary) = {
  proc main() : bool = { var b : bool; Silent.bad <- false; b <@ A(Silent).run(); return b; }
}.

(* `call (_ : B, I)` goes by what oracles do as long as B isn't true in the second game. Here I is `true`: nothing else has to be kept.
   From then on the runs go on apart, so B can't become false again, and no oracle may lose weight: each run has one on the other side. *)
lemma until_bad (A <: Adversary {-Silent}) :
  equiv [Real(A).main ~ Ideal(A).main : ={glob A} ==> !Silent.bad{2} => ={res}].
proof.
proc.
call (_ : Silent.bad, true).
(* equal guesses get equal answers, unless `bad` is true then *)
proc. wp. rnd. skip. smt().
(* once `bad` is true it stays so *)
proc. wp. rnd. skip. smt().
(* before the calls: if `bad` isn't true, both adversaries start from the same globals; and behind them, if it isn't true then, both
   results are the same *)
wp. skip. smt(). qed.

(* So what the adversary gains from the server is at most the probability of `bad`, in the game that has no secrets. *)
lemma gains (A <: Adversary {-Silent}) &m :
  Pr[Real(A).main() @ &m : res] <= Pr[Ideal(A).main() @ &m : res] + Pr[Ideal(A).main() @ &m : Silent.bad].
proof.
have H : Pr[Real(A).main() @ &m : res] <= Pr[Ideal(A).main() @ &m : res \/ Silent.bad].
byequiv (_ : ={glob A} ==> !Silent.bad{2} => ={res}).
apply (until_bad A). smt(). smt().
have U : Pr[Ideal(A).main() @ &m : res \/ Silent.bad]
  = Pr[Ideal(A).main() @ &m : res] + Pr[Ideal(A).main() @ &m : Silent.bad] - Pr[Ideal(A).main() @ &m : res /\ Silent.bad].
rewrite Pr[mu_or]. trivial.
have N : 0%r <= Pr[Ideal(A).main() @ &m : res /\ Silent.bad].
rewrite Pr[mu_ge0].
linear (H, U, N).
qed.

(* What the oracles keep besides. A one-time pad is drawn when it is first used, and then used again. Up to the second use its texts are
   noise, for which both games have to be at the same use: this is what is kept as long as the pad wasn't used twice. *)
module type Cipher = { proc enc(m : bits 3) : bits 3 }.
module type Reader (O : Cipher) = { proc guess() : bool {O.enc} }.
module Reused = { var pad : bits 3 var uses : int[3]
  proc enc(m : bits 3) : bits 3 = {
    if (uses = 0) { pad <$ uniform (bits 3); }
    uses <- uses = 0 ? 1 : 2;
    return m +^ pad;
  }
}.
module Noise = { var uses : int[3]
  proc enc(m : bits 3) : bits 3 = { var c : bits 3; c <$ uniform (bits 3); uses <- uses = 0 ? 1 : 2; return c; }
}.
module Read (A : Reader, O : Cipher) = { proc main() : bool = { var b : bool; b <@ A(O).guess(); return b; } }.

lemma one_time (A <: Reader {-Reused, -Noise}) :
  equiv [Read(A, Reused).main ~ Read(A, Noise).main :
    ={glob A} /\ Reused.uses{1} = 0 /\ Noise.uses{2} = 0 ==> Noise.uses{2} <> 2 => ={res}].
proof.
proc.
call (_ : Noise.uses = 2, Reused.uses{1} = Noise.uses{2}).
proc. if{1}.
wp. rnd (fun k => m{1} +^ k). skip. smt().    (* the first use: each pad beside the text that it makes *)
wp. rnd{2}. skip. smt().                      (* a later one: then the pad was used twice *)
proc. wp. rnd. skip. smt().
skip. smt(). qed.
