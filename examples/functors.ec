(* A game is a module with a parameter: it plays with whatever cipher it is given. What is said of two ciphers is then said of the
   game with the one and with the other. *)

module type Cipher = { proc masked(m : bits 4) : bits 4 }.

module Pad : Cipher = {
  proc masked(m : bits 4) : bits 4 = { var k : bits 4; k <$ uniform (bits 4); return m +^ k; }
}.

module Ideal : Cipher = {
  proc masked(m : bits 4) : bits 4 = { var c : bits 4; c <$ uniform (bits 4); return c; }
}.

(* Each of two messages, masked. *)
module Game (C : Cipher) = {
  proc play(a : bits 4, b : bits 4) : bits 4 * bits 4 = {
    var x, y : bits 4;
    x <@ C.masked(a);
    y <@ C.masked(b);
    return (x, y);
  }
}.

(* `Game(Pad).play` is the procedure `play` with `Pad` in place of `C`. *)
lemma hidden : equiv [Game(Pad).play ~ Game(Ideal).play : true ==> ={res}].
proof.
proc.
call (_ : true ==> ={res}).
proc. rnd (fun v => m{1} +^ v). skip. smt().
call (_ : true ==> ={res}).
proc. rnd (fun v => m{1} +^ v). skip. smt().
skip. smt().
qed.

(* A module with a parameter may be a cipher itself: `Twice(C)` masks what `C` has masked. Given a cipher, it may stand wherever one is
   asked for. *)
module Twice (C : Cipher) : Cipher = {
  proc masked(m : bits 4) : bits 4 = {
    var x, y : bits 4;
    x <@ C.masked(m);
    y <@ C.masked(x);
    return y;
  }
}.

lemma as_good : equiv [Twice(Pad).masked ~ Ideal.masked : true ==> ={res}].
proof.
proc.
inline{1} *.                   (* both calls become statements; the message of the second one is l2 there *)
wp. rnd (fun v => l2{1} +^ v). (* the second key is coupled with the uniform text *)
wp. rnd{1}. wp.                (* the first one is drawn on the left alone *)
skip. smt().
qed.
