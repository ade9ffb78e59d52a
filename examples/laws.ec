(* Laws of events, `rewrite Pr[..]`: what follows for probabilities without a look at the program. What they leave are sums of
   probabilities, which judgments bound and `linear` adds. *)

type text = bits 3.

(* Who has two tries at a lock with a random key. *)
module Lock = {
  var first : bool
  var second : bool
  proc tries(x : text, y : text) : bool = {
    var k : text;
    k <$ uniform text;
    first <- x = k;
    second <- y = k;
    return first \/ second;
  }
}.

lemma one (x y : text) &m : Pr[Lock.tries(x, y) @ &m : Lock.first] = 1%r / 8%r.
proof. byphoare (_ : true ==> Lock.first). proc. wp. rnd. skip. smt(). smt(). smt(). qed.

lemma two (x y : text) &m : Pr[Lock.tries(x, y) @ &m : Lock.second] = 1%r / 8%r.
proof. byphoare (_ : true ==> Lock.second). proc. wp. rnd. skip. smt(). smt(). smt(). qed.

(* The union bound: one of two events is at most as probable as both together. *)
lemma either (x y : text) &m : Pr[Lock.tries(x, y) @ &m : Lock.first \/ Lock.second] <= 1%r / 4%r.
proof.
rewrite Pr[mu_or].             (* Pr[first] + Pr[second] - Pr[first /\ second] *)
have A := one x y &m.
have B := two x y &m.
have C : 0%r <= Pr[Lock.tries(x, y) @ &m : Lock.first /\ Lock.second].
rewrite Pr[mu_ge0].            (* as every probability is *)
linear (A, B, C).
qed.

(* That the lock opens where a try hits is said by the program, so it is no law of events. *)
lemma opens (x y : text) &m : Pr[Lock.tries(x, y) @ &m : res] <= 1%r / 4%r.
proof.
have A : Pr[Lock.tries(x, y) @ &m : res] <= Pr[Lock.tries(x, y) @ &m : Lock.first \/ Lock.second].
byequiv (_ : ={x, y} ==> res{1} => Lock.first{2} \/ Lock.second{2}).
proc. wp. rnd. skip. smt(). smt(). smt().
have B := either x y &m.
linear (A, B).
qed.

(* The complement. `tries` loses no weight, so the whole is 1. *)
lemma holds (x y : text) &m : Pr[Lock.tries(x, y) @ &m : !res] >= 3%r / 4%r.
proof.
rewrite Pr[mu_not].            (* 1%r - Pr[res] *)
have A := opens x y &m.
linear (A).
qed.

(* Of a procedure that may lose weight the whole is how often it ends, which is at most 1 like every probability. *)
module Picky = { proc draw() : text = { var t : text; t <$ drestrict (uniform text) (fun v => v <> 0); return t; } }.

lemma rest &m : Pr[Picky.draw() @ &m : !(res = 1)] <= 1%r - Pr[Picky.draw() @ &m : res = 1].
proof.
rewrite Pr[mu_not].            (* Pr[true] - Pr[res = 1] *)
have A : Pr[Picky.draw() @ &m : true] <= 1%r. rewrite Pr[mu_le1].
linear (A).
qed.

(* An event that contradicts itself: its probability is that of `false`. *)
lemma never &m : Pr[Picky.draw() @ &m : res < 1 /\ 2 < res] = 0%r.
proof.
have A : Pr[Picky.draw() @ &m : res < 1 /\ 2 < res] = Pr[Picky.draw() @ &m : false].
rewrite Pr[mu_eq].             (* in every memory one event is so where the other one is *)
smt().
rewrite A. rewrite Pr[mu_false]. trivial.
qed.

(* Up to bad: who forges guesses the key, unless two nonces are the same. *)
module Nonces = {
  var bad : bool
  proc forge(t : text) : bool = {
    var n, o, k : text;
    n <$ uniform text;
    o <$ uniform text;
    k <$ uniform text;
    bad <- n = o;
    return bad \/ t = k;
  }
}.

lemma repeats (t : text) &m : Pr[Nonces.forge(t) @ &m : Nonces.bad] = 1%r / 8%r.
proof. byphoare (_ : true ==> Nonces.bad). proc. wp. kill 3. rnd. rnd. skip. smt(). smt(). smt(). qed.

lemma guesses (t : text) &m : Pr[Nonces.forge(t) @ &m : res /\ !Nonces.bad] <= 1%r / 8%r.
proof. byphoare (_ : true ==> res /\ !Nonces.bad). proc. wp. rnd. rnd. rnd. skip. smt(). smt(). smt(). qed.

lemma forges (t : text) &m : Pr[Nonces.forge(t) @ &m : res] <= 1%r / 4%r.
proof.
rewrite Pr[mu_split Nonces.bad].     (* Pr[res /\ bad] + Pr[res /\ !bad] *)
have A : Pr[Nonces.forge(t) @ &m : res /\ Nonces.bad] <= Pr[Nonces.forge(t) @ &m : Nonces.bad].
rewrite Pr[mu_sub].                  (* in every memory the one event implies the other one *)
smt().
have B := repeats t &m.
have C := guesses t &m.
linear (A, B, C).
qed.
