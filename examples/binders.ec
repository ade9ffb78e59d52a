(* Lemmas that hold for every module of a module type. *)

module type Guesser = { proc guess(c : bits 4) : bits 4 }.

(* A game. A text is sealed with a fresh key, and where the game is on, a guesser sees what comes out. *)
module Pad (A : Guesser) = {
  var key : bits 4
  proc seal(m : bits 4) : bits 4 = { key <$ uniform (bits 4); return m +^ key; }
  proc play(m : bits 4, on : bool) : bool = {
    var c, g : bits 4;
    c <@ Pad(A).seal(m);
    g <- 0;
    if (on) { g <@ A.guess(c); }
    return g = m;
  }
}.

(* Whoever guesses, sealed texts are alike. A is any module of the type Guesser that leaves the globals of Pad alone. *)
lemma sealed (A <: Guesser {-Pad}) : equiv [Pad(A).seal ~ Pad(A).seal : true ==> ={res}].
proof. proc. rnd (fun k => (m{1} +^ m{2}) +^ k). skip. smt(). qed.

(* Two guessers, and a game with each of them. The second one leaves alone what the first one may touch. *)
lemma same (A <: Guesser) (B <: Guesser {-A, -Pad}) &m :
  Pr[Pad(A).seal(3) @ &m : res = 7] = Pr[Pad(B).seal(5) @ &m : res = 7].
proof.
byequiv (_ : true ==> ={res}).
proc. rnd (fun k => (m{1} +^ m{2}) +^ k). skip. smt().
smt().
smt().
qed.

(* While the game isn't on, nobody guesses: the call of A stands in a branch that isn't taken. *)
lemma off (A <: Guesser {-Pad}) &m : Pr[Pad(A).play(5, false) @ &m : res] = 0%r.
proof.
byphoare (_ : !on /\ m <> 0 ==> res).
hoare.
proc.
inline Pad(A).seal.         (* l0 <- m; Pad.key <$ ..; c <- l0 +^ Pad.key; in place of the call *)
rcondf 5.
wp. rnd. wp. skip. smt().   (* in front of the branch the game isn't on *)
wp. rnd. wp. skip. smt().   (* without the branch g is 0 *)
smt().
smt().
qed.

(* Some laws ask for no body: they hold of A's own procedure. *)
lemma union (A <: Guesser) (x : bits 4) &m :
  Pr[A.guess(x) @ &m : res = 0 \/ res = 1] <= Pr[A.guess(x) @ &m : res = 0] + Pr[A.guess(x) @ &m : res = 1].
proof.
rewrite Pr[mu_or].
have h : 0%r <= Pr[A.guess(x) @ &m : res = 0 /\ res = 1].
rewrite Pr[mu_ge0].
linear (h).
qed.

(* What is to be known of it may be a premise. *)
lemma between (A <: Guesser) (B <: Guesser) (C <: Guesser) :
  equiv [A.guess ~ B.guess : ={c} ==> ={res}] => equiv [B.guess ~ C.guess : ={c} ==> ={res}] => equiv [A.guess ~ C.guess : ={c} ==> ={res}].
proof.
move=> h k.
transitivity B.guess (={c} ==> ={res}) (={c} ==> ={res}).
smt().
smt().
apply (h).
apply (k).
qed.

(* A module type with a parameter: a player may ask an oracle, whichever it is given. *)
module type Oracle = { proc ask(x : bits 4) : bits 4 }.
module type Player (O : Oracle) = { proc run() : bits 4 {O.ask} }.

module Mask = { var key : bits 4 proc ask(x : bits 4) : bits 4 = { return x +^ key; } }.

module Game (P : Player) = {
  proc start() : unit = { Mask.key <$ uniform (bits 4); }
  proc main() : bits 4 = { var r : bits 4; Game(P).start(); r <@ P(Mask).run(); return r; }
}.

lemma fresh (P <: Player {-Mask}) : phoare [Game(P).start : true ==> Mask.key = 0] = 1%r / 16%r.
proof. proc. rnd. skip. smt(). qed.

lemma at_most (P <: Player {-Mask}) (O <: Oracle) &m :
  Pr[Game(P).main() @ &m : res = Mask.key] <= 1%r /\ 0%r <= Pr[P(O).run() @ &m : res = 0].
proof. split. rewrite Pr[mu_le1]. rewrite Pr[mu_ge0]. qed.

(* What a guesser may touch is known: all that is its own, and nothing of the modules that it leaves alone. It loses no weight. *)
module Log = { var seen : bool }.

module Watch (A : Guesser) = {
  proc early(c : bits 4) : bits 4 = { var g : bits 4; Log.seen <- true; g <@ A.guess(c); return g; }
  proc late(c : bits 4) : bits 4 = { var g : bits 4; g <@ A.guess(c); Log.seen <- true; return g; }
  proc blind() : bool = { var g, k : bits 4; g <@ A.guess(0); k <$ uniform (bits 4); return g = k; }
}.

(* So it makes no difference when the log is written. Without {-Log} the swap is refused: A may read it. *)
lemma logged (A <: Guesser {-Log}) (x : bits 4) &m :
  Pr[Watch(A).early(x) @ &m : res = 0 /\ Log.seen] = Pr[Watch(A).late(x) @ &m : res = 0 /\ Log.seen].
proof.
byequiv (_ : ={c, glob A} ==> ={res, glob A, Log.seen}).
proc. swap{1} 1 1. sim. smt().
smt().
smt().
qed.

(* Whatever is guessed before the key is drawn, it is the key once in sixteen times. *)
lemma blind (A <: Guesser) : phoare [Watch(A).blind : true ==> res] = 1%r / 16%r.
proof.
proc. rnd.
conseq (_ : _ ==> true). smt(). smt().
kill 1.            (* nothing is read any more of what A does *)
skip. smt().
qed.
