(* Reductions. What is shown once of all adversaries against a game holds of each module that may play there: also of one that is made of
   an adversary against another game, whose questions it answers and whose answer it uses. So a bound on the one game is a bound on the
   other. The report: lemma guessed, lemma hop, lemma cracked, lemma real_or_random, lemma left_or_right, accepted 5. *)

type key = bits 4.

(* The game that is hard: a secret is drawn, and guessed by who has seen nothing of it. *)
module type Guesser = { proc guess() : key }.

module Guess (A : Guesser) = {
  var secret : key
  proc main() : bool = { var x : key; secret <$ uniform key; x <@ A.guess(); return x = secret; }
}.

lemma guessed (A <: Guesser {-Guess}) &m : Pr[Guess(A).main() @ &m : res] <= 1%r / 16%r.
proof.
byphoare (_ : true ==> res).
proc. swap 1 1. rnd.       (* A knows nothing of the secret, so it may be drawn behind A's guess *)
call (_ : true). skip. smt().
smt(). smt().
qed.

(* Another game. A safe shows its code, masked; a thief is to open it. *)
module type Thief = { proc crack(c : key) : key }.

module Safe (T : Thief) = {
  var code : key
  proc main() : bool = {
    var r, x : key;
    code <$ uniform key;
    r <$ uniform key;
    x <@ T.crack(code +^ r);
    return x = code;
  }
}.

(* The reduction. A thief makes a guesser: it is shown a text of the guesser's own. *)
module Against (T : Thief) = {
  proc guess() : key = { var c, x : key; c <$ uniform key; x <@ T.crack(c); return x; }
}.

(* It wins as often as the thief does: each mask is coupled with the text that it makes of the code. *)
lemma hop (T <: Thief {-Safe, -Guess}) &m :
  Pr[Safe(T).main() @ &m : res] = Pr[Guess(Against(T)).main() @ &m : res].
proof.
byequiv (_ : ={glob T} ==> ={res}).
proc.
inline{2} Against(T).guess.
wp. call (_ : true).                   (* both thieves see the same text *)
rnd (fun v => Safe.code{1} +^ v).
wp. rnd.                               (* the code is the secret *)
skip. smt().
smt(). smt().
qed.

(* The bound on guessers, at the guesser that the thief makes. `guessed` takes a module for A and a memory; with arguments of its own the
   module stands in brackets. It has to have the procedures of its module type and to leave Guess alone: it touches T's globals, and T
   leaves Guess alone. Without {-Guess} here the step is refused (E10) at the bracket. *)
lemma cracked (T <: Thief {-Safe, -Guess}) &m : Pr[Safe(T).main() @ &m : res] <= 1%r / 16%r.
proof.
rewrite (hop T &m).
apply (guessed (Against(T)) &m).
qed.

(* The same with oracles. A cipher that takes a new pad for each message, and one that answers with noise; nobody tells them apart. *)
module type Cipher = { proc enc(m : bits 3) : bits 3 }.
module type Distinguisher (E : Cipher) = { proc guess() : bool {E.enc} }.

module Pad = { proc enc(m : bits 3) : bits 3 = { var k : bits 3; k <$ uniform (bits 3); return m +^ k; } }.
module Noise = { proc enc(m : bits 3) : bits 3 = { var c : bits 3; c <$ uniform (bits 3); return c; } }.

module Game (D : Distinguisher, E : Cipher) = { proc main() : bool = { var b : bool; b <@ D(E).guess(); return b; } }.

lemma real_or_random (D <: Distinguisher) &m :
  Pr[Game(D, Pad).main() @ &m : res] = Pr[Game(D, Noise).main() @ &m : res].
proof.
byequiv (_ : ={glob D} ==> ={res}).
proc. call (_ : true).
proc. rnd (fun k => m{1} +^ k). skip. smt().
skip. smt().
smt(). smt().
qed.

(* An adversary that asks with two messages, and gets the first one or the second one encrypted. With such an oracle it is a distinguisher
   that still lacks its cipher: ByLeft(A) asks its own oracle, through Left, for each question of A. *)
module type LeftOrRight = { proc enc(l : bits 3, r : bits 3) : bits 3 }.
module type Adversary (O : LeftOrRight) = { proc guess() : bool {O.enc} }.

module Left (E : Cipher) = { proc enc(l : bits 3, r : bits 3) : bits 3 = { var c : bits 3; c <@ E.enc(l); return c; } }.
module Right (E : Cipher) = { proc enc(l : bits 3, r : bits 3) : bits 3 = { var c : bits 3; c <@ E.enc(r); return c; } }.

module ByLeft (A : Adversary, E : Cipher) = { proc guess() : bool = { var b : bool; b <@ A(Left(E)).guess(); return b; } }.
module ByRight (A : Adversary, E : Cipher) = { proc guess() : bool = { var b : bool; b <@ A(Right(E)).guess(); return b; } }.

(* So it can't tell which of both is encrypted: both games are played with noise, where the messages don't matter. *)
lemma left_or_right (A <: Adversary) &m :
  Pr[Game(ByLeft(A), Pad).main() @ &m : res] = Pr[Game(ByRight(A), Pad).main() @ &m : res].
proof.
rewrite (real_or_random (ByLeft(A)) &m).
rewrite (real_or_random (ByRight(A)) &m).
byequiv (_ : ={glob A} ==> ={res}).
proc. inline *. wp. call (_ : true).
proc. inline *. wp. rnd. wp. skip. smt().    (* noise for the one message, and for the other *)
wp. skip. smt().
smt(). smt().
qed.
