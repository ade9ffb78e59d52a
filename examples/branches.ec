(* Procedures with parameters, assignments and branches, and the steps that work on them.

   `turned` flips a coin, and turns the result around where its argument is false; that is one flip of a coin. *)

module M = {
  proc turned(a : bool) : bool = {
    var x, y : bool;
    if (a) { x <$ {0,1}; y <- x; } else { x <$ {0,1}; y <- !x; }
    return y;
  }
  proc flip(a : bool) : bool = { var x : bool; x <$ {0,1}; return x; }
  proc both(a : bool) : bool = {
    var x, y : bool;
    x <$ {0,1};
    y <$ {0,1};
    if (x) { y <- !y; }
    return y;
  }
}.

lemma turned_is_a_flip : equiv [M.turned ~ M.flip : true ==> ={res}].
proof.
proc.
if{1}.                 (* the branch of the left body: a goal for each side of it *)
wp.                    (* assignments at the end move into the postcondition *)
rnd.                   (* couple the two samplings as they are *)
skip.
smt().
wp.
rnd (fun v => !v).     (* where the argument is false, along the negation *)
skip.
smt().
qed.

lemma both_alike : equiv [M.both ~ M.both : true ==> ={res}].
proof.
proc.
seq 1 1 : (={x}).      (* cut both bodies behind the first statement, with what holds there *)
rnd.
skip.
smt().
wp.                    (* branches of assignments move into the postcondition, too *)
rnd.
skip.
smt().
qed.
