(* A module with a global: what one procedure writes another one reads, and a lemma speaks of it before and after. *)

type count = int[4].

module Counter = {
  var n : count
  var last : bool

  (* inside of its module a global is named by its word alone *)
  proc reset() : unit = { n <- 0; last <- false; }

  proc tick(b : bool) : count = {
    if (b) { n <- n + 1; }
    last <- b;
    return n;
  }
}.

module Other = {
  (* outside of it by the module and the word *)
  proc tick(b : bool) : count = {
    Counter.last <- b;
    Counter.n <- b ? Counter.n + 1 : Counter.n;
    return Counter.n;
  }
}.

(* From equal counters both leave equal counters, and the same result. *)
lemma alike : equiv [Counter.tick ~ Other.tick : ={b, Counter.n} ==> ={res, Counter.n, Counter.last}].
proof. proc. wp. skip. smt(). qed.

(* What a procedure writes is known behind it, whatever was there before. *)
lemma fresh : equiv [Counter.reset ~ Counter.reset : true ==> ={Counter.n} /\ !Counter.last{1} /\ !Counter.last{2}].
proof. proc. wp. skip. smt(). qed.
