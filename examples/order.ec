(* Statements that change their places.

   `early` counts a call before it flips a coin, and `late` afterwards. Who sees the coin and the counter alone can't tell them apart. *)

module L = {
  var odd : bool
  proc tick() : unit = { odd <- !odd; }
}.

module M = {
  proc early() : bool = { var x : bool; L.tick(); x <$ {0,1}; return x; }
  proc late() : bool = { var x : bool; x <$ {0,1}; L.tick(); return x; }
  proc twice() : bool * bool = { var x, y : bool; x <$ {0,1}; y <$ {0,1}; return (x, y); }
  proc turned() : bool * bool = { var x, y : bool; y <$ {0,1}; x <$ {0,1}; return (x, y); }
}.

lemma when : equiv [M.early ~ M.late : ={L.odd} ==> ={res, L.odd}].
proof.
proc.
swap{1} 1 1.           (* on the left, statement 1 moves 1 place further back: it writes `L.odd`, which no coin reads *)
call (_ : ={L.odd} ==> ={L.odd}).
proc.
wp.
skip.
smt().
rnd.                   (* the coins are what both bodies end with now *)
skip.
smt().
qed.

lemma which : equiv [M.twice ~ M.turned : true ==> ={res}].
proof.
proc.
swap{2} 2 -1.          (* on the right, statement 2 moves 1 place to the front *)
rnd.
rnd.
skip.
smt().
qed.
