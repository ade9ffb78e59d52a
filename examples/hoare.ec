(* What one procedure does: a judgment `hoare [M.f : P ==> Q]` says that from each memory in P, whatever is sampled, `M.f` comes to
   a memory in Q. In P stand the parameters, in Q the result, `res`. *)

module M = {
  proc mixed(a : bits 2, b : bool) : bits 2 = {
    var x : bits 2;
    if (b) { x <- a +^ 1; } else { x <- a; }
    x <- x +^ a;
    return x;
  }
  proc kept(a : bool) : bool = { var x, y : bool; x <- a; y <- !x; return !y; }
}.

lemma only_the_flag (c : bool) : hoare [M.mixed : b = c ==> res = (c ? 1 : 0)].
proof.
proc.                  (* from the procedure to its body *)
if.                    (* a goal for each side of the branch, with its test beside the precondition *)
wp.                    (* assignments at the end move into the postcondition *)
skip.                  (* no statement is left: for every memory, the precondition implies the postcondition *)
smt().
wp.
skip.
smt().
qed.

lemma kept_is_the_argument (c : bool) : hoare [M.kept : a = c ==> res = c].
proof.
proc.
seq 1 : (x = c).       (* cut the body behind its first statement, with what holds there *)
wp.
skip.
smt().
wp.
skip.
smt().
qed.

(* A sampling at the end of a body leaves: the postcondition is asked of each value that the distribution may give. *)
module Die = { proc roll() : bits 2 = { var x : bits 2; x <$ drestrict (uniform (bits 2)) (fun v => v <> 0); return x; } }.

lemma never_zero : hoare [Die.roll : true ==> res <> 0].
proof. proc. rnd. skip. smt(). qed.

(* What holds is shown for each side of a case, if that helps. *)
lemma by_cases (c : bool) : hoare [M.mixed : b = c ==> res = (c ? 1 : 0)].
proof. proc. case (b); if; wp; skip; smt(). qed.
