(* The one-time pad hides its message: a message of 4 bits, masked with a fresh key, comes out as a uniform text
   does, whatever the message is. And a die that is turned by one is a die. *)

module Pad = {
  proc masked(m : bits 4) : bits 4 = { var k : bits 4; k <$ uniform (bits 4); return m +^ k; }
  proc random(m : bits 4) : bits 4 = { var c : bits 4; c <$ uniform (bits 4); return c; }
}.

lemma hides : equiv [Pad.masked ~ Pad.random : true ==> ={res}].
proof.
proc.
rnd (fun v => m{1} +^ v).      (* couple the key k with the text m +^ k; the map leads back, too *)
skip.
smt().                         (* for every two messages, each text is drawn as often as the key that gives it *)
qed.

module Die = {
  proc rolled() : int[6] = { var x : int[6]; x <$ uniform int[6]; return x; }
  proc turned() : int[6] = { var x : int[6]; x <$ uniform int[6]; x <- x + 1; return x; }
}.

lemma turns : equiv [Die.rolled ~ Die.turned : true ==> ={res}].
proof.
proc.
wp.                                          (* the assignment moves into the postcondition *)
rnd (fun v => v - 1) (fun v => v + 1).       (* there, and back *)
skip.
smt().
qed.
