(* The same statements on both sides.

   `early` and `late` ask a counting coin; one of them counts before it asks, the other one afterwards. Where the statements of both bodies
   are the same, `sim` looks through them from the end: it finds out what has to be equal before, so that what is asked for is equal after. *)

module L = {
  var count : int[8]
  var seed : bool
  proc tick() : unit = { count <- count + 1; }
  proc coin() : bool = { var y : bool; y <$ {0,1}; return y = seed; }
}.

module M = {
  proc early(b : bool) : bool = {
    var x, noise : bool;
    L.tick();
    x <@ L.coin();
    noise <$ {0,1};
    if (b) { x <- !x; }
    return x;
  }
  proc late(b : bool) : bool = {
    var x, noise : bool;
    x <@ L.coin();
    L.tick();
    noise <$ {0,1};
    if (b) { x <- !x; }
    return x;
  }
}.

lemma alike : equiv [M.early ~ M.late : ={b, L.count, L.seed} ==> ={res, L.count}].
proof.
proc.
swap{1} 1 1.           (* on the left, `L.tick` moves behind the coin: now both bodies are the same *)
sim.                   (* `x` and `L.count` are to be equal: so `b`, which the branch reads, `L.count` and `L.seed`; `noise` doesn't matter *)
smt().                 (* the precondition says so *)
qed.

lemma itself : equiv [L.coin ~ L.coin : ={L.seed} ==> ={res}].
proof.
proc.
conseq (_ : _ ==> ={y, L.seed}).   (* the results are no variables: ask for what decides them, which `sim` can look for *)
smt().
smt().
sim.
smt().
qed.

(* `inline` puts the statements of a procedure in the place of its call, with new names for its parameters and locals. *)

module P = { proc f() : bool = { var a : bool; a <@ L.coin(); return a; } }.

lemma opened : equiv [P.f ~ L.coin : ={L.seed} ==> ={res}].
proof.
proc.
inline *.              (* on the left now: `l0 <- false; l0 <$ {0,1}; a <- l0 = L.seed;`, and no call on the right *)
wp.                    (* the last assignment goes into what is to hold *)
rnd.                   (* both coins fall alike *)
wp.
skip.
smt().
qed.
