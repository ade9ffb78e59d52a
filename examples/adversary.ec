(* Games against an adversary of which nothing is known but what it may call. It asks an oracle, as often and as it likes, with
   questions that depend on earlier answers. What the oracle keeps is then kept by the whole attack. *)

module type Cipher = { proc init() : unit proc enc(m : bits 3) : bits 3 }.

(* An adversary asks for encryptions, and says at last what it believes. It may not start the cipher anew. *)
module type Adversary (O : Cipher) = { proc guess() : bool {O.enc} }.

module Game (A : Adversary, O : Cipher) = {
  proc main() : bool = { var b : bool; O.init(); b <@ A(O).guess(); return b; }
}.

(* A cipher with one key, and the same with its key kept in two shares, which are masked afresh at each use. *)
module Plain = { var key : bits 3
  proc init() : unit = { key <$ uniform (bits 3); }
  proc enc(m : bits 3) : bits 3 = { return m +^ key; }
}.
module Masked = { var left, right : bits 3
  proc init() : unit = { var k : bits 3; k <$ uniform (bits 3); left <- k; right <- 0; }
  proc enc(m : bits 3) : bits 3 = { var r : bits 3;
    r <$ uniform (bits 3); left <- left +^ r; right <- right +^ r; return (m +^ left) +^ right; }
}.

(* No adversary tells them apart. The invariant says that the shares make the key. It is shown of the one oracle that may be asked,
   on equal questions; `call` then goes from the adversary's call to what is to hold before it: the invariant, and that both
   adversaries start from the same globals. They are the adversary's own: the restriction keeps those of both ciphers from it. *)
lemma masked (A <: Adversary {-Plain, -Masked}) &m :
  Pr[Game(A, Plain).main() @ &m : res] = Pr[Game(A, Masked).main() @ &m : res].
proof.
byequiv (_ : ={glob A} ==> ={res}).
proc.
call (_ : Plain.key{1} = Masked.left{2} +^ Masked.right{2}).
(* the oracle: an answer, from equal questions, whatever the mask is *)
proc. wp. rnd{2}. skip. smt().
(* the start, in front of the call *)
call (_ : true ==> Plain.key{1} = Masked.left{2} +^ Masked.right{2}).
proc. wp. rnd. skip. smt().
skip. smt().
smt(). smt(). qed.

(* A one-time pad, with a fresh key for each message, and texts that have nothing to do with the message. *)
module Pad = { var asked : int[4]
  proc init() : unit = { asked <- 0; }
  proc enc(m : bits 3) : bits 3 = { var k : bits 3; asked <- asked + 1; k <$ uniform (bits 3); return m +^ k; }
}.
module Noise = { var asked : int[4]
  proc init() : unit = { asked <- 0; }
  proc enc(m : bits 3) : bits 3 = { var c : bits 3; asked <- asked + 1; c <$ uniform (bits 3); return c; }
}.

(* Real or random: the adversary's guess is as likely against either, however many messages it chooses. *)
lemma real_or_random (A <: Adversary {-Pad, -Noise}) &m :
  Pr[Game(A, Pad).main() @ &m : res] = Pr[Game(A, Noise).main() @ &m : res].
proof.
byequiv (_ : ={glob A} ==> ={res}).
proc.
call (_ : Pad.asked{1} = Noise.asked{2}).
proc. rnd (fun k => m{1} +^ k). wp. skip. smt().    (* each pad beside the one text that it makes of the message *)
call (_ : true ==> Pad.asked{1} = Noise.asked{2}).
proc. wp. skip. smt().
skip. smt().
smt(). smt(). qed.

(* The same of the adversary's procedure itself: the oracle, then what leads to the start, and what the end leads to. *)
lemma alike (A <: Adversary {-Pad, -Noise}) :
  equiv [A(Pad).guess ~ A(Noise).guess : ={glob A} /\ Pad.asked{1} = Noise.asked{2} ==> ={res, glob A} /\ Pad.asked{1} = Noise.asked{2}].
proof.
proc (Pad.asked{1} = Noise.asked{2}).
proc. rnd (fun k => m{1} +^ k). wp. skip. smt().
smt(). smt(). qed.

(* An attacker with a decryption oracle, which doesn't answer for the challenge. *)
module type Decrypter = { proc dec(c : bits 3) : bits 3 option }.
module type Attacker (O : Decrypter) = { proc attack(c : bits 3) : bits 3 {O.dec} }.
module Guard = { var key, challenge : bits 3 var leaked : bool
  proc dec(c : bits 3) : bits 3 option = { var m : bits 3 option;
    if (c = challenge) { m <- None; } else { m <- Some (c +^ key); }
    leaked <- leaked \/ m = Some (challenge +^ key);
    return m; }
}.

(* Whatever it asks, no answer is what the challenge hides: on one program, what each oracle keeps holds after the attack. *)
lemma guarded (A <: Attacker {-Guard}) : hoare [A(Guard).attack : !Guard.leaked ==> !Guard.leaked].
proof.
proc (!Guard.leaked).
proc. wp. skip. smt().
smt(). smt(). qed.
