(* Two programs that draw from different distributions may behave alike. A die with four faces and two coins are coupled here: each face
   with one way in which the coins may fall. What is shown of one throw is used for each call that throws. *)

(* The number that two coins show, and the coins that show a number. *)
op face (p : bool * bool) : bits 2 = if p.`1 then (if p.`2 then 3 else 2) else (if p.`2 then 1 else 0).
op coins (v : bits 2) : bool * bool = (v = 2 \/ v = 3, v = 1 \/ v = 3).

module Die = { proc throw() : bits 2 = { var v : bits 2; v <$ uniform (bits 2); return v; } }.
module Coins = { proc throw() : bits 2 = { var p : bool * bool; p <$ uniform (bool * bool); return face p; } }.

(* `rnd` takes a function from the values on the left to those on the right, and one back. It asks that each is the other's inverse, that
   values go together with equal weights, and that what is to hold afterwards holds of each pair. *)
lemma one_throw : equiv [Die.throw ~ Coins.throw : true ==> ={res}].
proof.
proc.
rnd (fun v => coins v) (fun p => face p).
skip. smt().
qed.

(* A pair of throws wins. *)
module Dice = { proc wins() : bool = { var x, y : bits 2; x <@ Die.throw(); y <@ Die.throw(); return x = y; } }.
module Flips = { proc wins() : bool = { var x, y : bits 2; x <@ Coins.throw(); y <@ Coins.throw(); return x = y; } }.

(* The lemma on one throw is all that is known of a call, and all that is needed. *)
lemma same_game : equiv [Dice.wins ~ Flips.wins : true ==> ={res}].
proof.
proc.
call (one_throw). call (one_throw).
skip. smt().
qed.

(* Who throws once more, and doesn't look, plays the same game: a sampling on one side leaves, since it loses no weight. *)
module Idle = { proc wins() : bool = { var x, y, z : bits 2; x <@ Die.throw(); y <@ Die.throw(); z <$ uniform (bits 2); return x = y; } }.

lemma idle_game : equiv [Idle.wins ~ Flips.wins : true ==> ={res}].
proof.
proc.
rnd{1}.
call (one_throw). call (one_throw).
skip. smt().
qed.

(* Both games with a die are alike, by way of the one with coins. First some memory between is to be there, then what both halves say is
   put together, and then come the halves. The second one is the lemma above the other way round. *)
lemma by_coins : equiv [Idle.wins ~ Dice.wins : true ==> ={res}].
proof.
transitivity Flips.wins (true ==> ={res}) (true ==> ={res}).
smt(). smt().
apply (idle_game).
symmetry. conseq (_ : true ==> ={res}). smt(). smt(). apply (same_game).
qed.

(* Of n throws the threes are counted. Both loops make the same turns, so they are taken together: each pair of turns keeps what is said. *)
module DiceCount = {
  proc threes(n : int[4]) : int[4] = {
    var i, s : int[4];
    var v : bits 2;
    i <- n;
    s <- 0;
    while (0 < i) variant i { v <@ Die.throw(); if (v = 3) { s <- s + 1; } i <- i - 1; }
    return s;
  }
}.
module FlipsCount = {
  proc threes(n : int[4]) : int[4] = {
    var i, s : int[4];
    var v : bits 2;
    i <- n;
    s <- 0;
    while (0 < i) variant i { v <@ Coins.throw(); if (v = 3) { s <- s + 1; } i <- i - 1; }
    return s;
  }
}.

(* First the loops are shown to end. *)
termination DiceCount.threes.
proof. smt(). wp. call (_ : true ==> true). proc. rnd. skip. smt(). skip. smt(). qed.
termination FlipsCount.threes.
proof. smt(). wp. call (_ : true ==> true). proc. rnd. skip. smt(). skip. smt(). qed.

lemma same_threes : equiv [DiceCount.threes ~ FlipsCount.threes : ={n} ==> ={res}].
proof.
proc.
while (={i, s}).
wp. call (one_throw). skip. smt().
wp. skip. smt().
qed.
