(* Loops. A loop says by its variant, a number that falls with each turn, how many turns are left. Before a lemma may name a module with a
   loop, `termination` shows this of each loop: where the guard is true the variant is above 0, and each turn makes it less. *)

module Bit = {
  proc get(j : int[4]) : bool = { return 0 < j; }
}.

(* Each number from n down to 1 gets an entry of the map. *)
module Fill = {
  proc all(n : int[4]) : (int[4], bool) fmap = {
    var i : int[4];
    var b : bool;
    var m : (int[4], bool) fmap;
    m <- empty;
    i <- n;
    while (0 < i) variant i {
      b <@ Bit.get(i);
      m.[i] <- b;
      i <- i - 1;
    }
    return m;
  }
}.

termination Fill.all.
proof.
smt().                                   (* where 0 < i is true, i is above 0 *)
wp.                                      (* the turn: i = k before it, i < k behind it *)
call (_ : true ==> true).                (* of what the call gives nothing has to be known *)
proc. skip. smt().
skip. smt().
qed.

(* The entry at n itself is written in the first turn, and no further turn writes it again. *)
lemma filled (k : int[4]) :
  hoare [Fill.all : n = k /\ 0 < k ==> res.[k] = Some true].
proof.
proc.
(* What each turn keeps: i is k at the start, and below it once the entry is there. *)
while ((i = k \/ i < k) /\ (i < k => m.[k] = Some true)).
wp. call (_ : 0 < j ==> res).
proc. skip. smt().
skip. smt().
(* Before the loop it holds; and with 0 < i false, so that i is 0 and below k, it gives what is claimed. *)
wp. skip. smt().
qed.
