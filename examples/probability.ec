(* Probabilities `Pr`. A bound on one of them follows from a judgment of its procedure (`byphoare`), a comparison of two
   from an equivalence of theirs (`byequiv`): a hop between games. *)

type text = bits 4.
op guess : text -> bool.       (* how one who sees a text decides: any function *)

(* One of two messages is masked with a fresh key; and the same where a random text is shown in place of the masked one. *)
module Game = {
  proc masked(m0 : text, m1 : text) : bool = {
    var b : bool; var k : text;
    b <$ {0,1};
    k <$ uniform text;
    return guess ((b ? m1 : m0) +^ k) = b;
  }
  proc random() : bool = {
    var b : bool; var c : text;
    b <$ {0,1};
    c <$ uniform text;
    return guess c = b;
  }
}.

(* The hop: whatever the messages are, both games are won as often. *)
lemma hop (x y : text) &m : Pr[Game.masked(x, y) @ &m : res] = Pr[Game.random() @ &m : res].
proof.
byequiv (_ : true ==> ={res}).
proc.                                            (* the equivalence of both games *)
rnd (fun v => (b{1} ? m1{1} : m0{1}) +^ v).      (* the key is coupled with the text that it makes *)
rnd.
skip.
smt().
smt().                                           (* the precondition holds of the arguments, in the memory m *)
smt().                                           (* equal results: the one game is won where the other one is *)
qed.

lemma coin (g : bool) : mu {0,1} (fun b => g = b) = 1%r / 2%r.
proof. smt(). qed.

(* Who sees a text that has nothing to do with the choice wins half of the time. *)
lemma half &m : Pr[Game.random() @ &m : res] = 1%r / 2%r.
proof.
byphoare (_ : true ==> res).
proc.
swap 1 1.                  (* the choice may be made last *)
rnd.                       (* its measure is left to say *)
rnd.
skip.
move=> h v d.
apply (coin (guess v)).
smt().
smt().
qed.

(* So the one-time pad can't be told from a random text. *)
lemma pad (x y : text) &m : Pr[Game.masked(x, y) @ &m : res] = 1%r / 2%r.
proof.
rewrite (hop x y &m).
apply (half &m).
qed.

module Key = {
  var kept : text
  proc tried(x : text) : bool = { var k : text; k <$ uniform text; return x = k; }
  proc either(x : text, y : text) : bool = { var k : text; k <$ uniform text; return x = k \/ y = k; }
  proc opens(x : text) : bool = { return x = kept; }
}.

lemma once (t : text) &m : Pr[Key.tried(t) @ &m : res] <= 1%r / 16%r.
proof.
byphoare (_ : true ==> res).
proc.
rnd.
skip.
smt().
smt().
smt().
qed.

(* Of two tries the first one alone is no better. *)
lemma second (t u : text) &m : Pr[Key.tried(t) @ &m : res] <= Pr[Key.either(t, u) @ &m : res].
proof.
byequiv (_ : ={x} ==> res{1} => res{2}).
proc.
rnd.
skip.
smt().
smt().
smt().
qed.

(* What is known of the memory in which the procedure starts may be asked for before it. *)
lemma wrong (t : text) &m : t <> Key.kept{m} => Pr[Key.opens(t) @ &m : res] = 0%r.
proof.
move=> h.
byphoare (_ : x <> Key.kept ==> res).
proc.
skip.
smt().
smt().      (* t isn't the key that m keeps, by h *)
smt().
qed.
