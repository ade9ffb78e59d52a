(* Forms about memories, and globals in them. *)

module M = {
  var flag : bool
  var count : int[5]
  proc flip() : bool = { flag <- !flag; return flag; }
}.

(* Two memories that agree with a third one agree. *)
lemma agree : forall &m &n &k, M.count{m} = M.count{k} => M.count{n} = M.count{k} => M.count{m} = M.count{n}.
proof.
move=> &m &n &k H K.
smt().
qed.

(* Values and memories stand in one quantifier. *)
lemma apart : forall (x : bool) &m &n, M.flag{m} = x => M.flag{n} <> x => M.flag{m} <> M.flag{n}.
proof.
move=> x &m &n H K.
smt().
qed.

(* A form that says something of all memories may be a step of a proof. *)
lemma one_of_two &m : M.flag{m} \/ !M.flag{m}.
proof.
have H : forall &n, M.flag{n} \/ !M.flag{n}.
move=> &n.
smt().
smt().
qed.

(* Where a memory with the flag is given, there is one. *)
lemma given : (exists &m (x : int[5]), M.flag{m} /\ M.count{m} = x) => exists &n (y : int[5]), M.flag{n} /\ M.count{n} = y.
proof.
move=> H.
assumption.
qed.
