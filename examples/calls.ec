(* Calls. What a procedure does that calls others is shown by what is said of these: `call (_ : P ==> Q)` takes off the call that ends
   a body. First it is to be shown that the called procedure leads from P to Q. Then, before the call, P has to hold of the arguments, and Q
   has to lead to what is wanted behind it, for all results and for all values of the globals that the procedure writes. *)

module Counter = {
  var count : bits 2
  var locked : bool
  proc add(n : bits 2) : bits 2 = { count <- count +^ n; return count; }
}.

module User = {
  proc twice(n : bits 2) : bits 2 = {
    var x, y : bits 2;
    x <@ Counter.add(n);
    y <@ Counter.add(n);
    return x;
  }
}.

(* To flip the same bits twice changes nothing. *)
lemma flipped_back (k m : bits 2) (b : bool) :
  hoare [User.twice : n = m /\ Counter.count = k /\ Counter.locked = b ==> Counter.count = k /\ Counter.locked = b].
proof.
proc.
(* In P stands the parameter of `add`, here also an n. Behind a call there are no parameters, so Q has the m of the lemma. *)
call (_ : n = m /\ Counter.count = k +^ m ==> Counter.count = k).
proc. wp. skip. smt().
(* Of `locked` nothing is said, and nothing has to be: `add` doesn't write it, so it stays as it is. *)
call (_ : n = m /\ Counter.count = k ==> Counter.count = k +^ m).
proc. wp. skip. smt().
skip. smt().
qed.

(* Nor does the second call write `x`, the local in which the result of the first one stands. In Q the result is `res`. *)
lemma first_result (k m : bits 2) :
  hoare [User.twice : n = m /\ Counter.count = k ==> res = k +^ m].
proof.
proc.
call (_ : true ==> true).
proc. wp. skip. smt().
call (_ : n = m /\ Counter.count = k ==> res = k +^ m).
proc. wp. skip. smt().
skip. smt().
qed.

(* A call may be taken off under a bound of a probability too. Then the procedure is shown to have the same bound, and what is said of its
   result has to be as likely as what is wanted behind the call: for `=` both at the same results. *)
module Coin = {
  proc toss(a : bool) : bool = { var y : bool; y <$ {0,1}; return y +^ a; }
  proc other(b : bool) : bool = { var x : bool; x <@ Coin.toss(b); return !x; }
}.

lemma fair : phoare [Coin.other : true ==> res] = 1%r / 2%r.
proof.
proc.
call (_ : true ==> !res).
proc. rnd. skip. smt().
skip. smt().
qed.

(* Two calls may be taken off at once, one on each side of an equivalence. In P and Q the parameters, the results and the globals have their
   sides. *)
module Turned = {
  proc toss() : bool = { var y : bool; y <$ {0,1}; return !y; }
  proc other() : bool = { var x : bool; x <@ Turned.toss(); return !x; }
}.

lemma alike : equiv [Coin.other ~ Turned.other : true ==> ={res}].
proof.
proc.
call (_ : true ==> ={res}).
proc.
(* Where the left coin shows v, the right one has to show the turned result of the left procedure, since it is turned itself. *)
rnd (fun v => !(v +^ a{1})).
skip. smt().
skip. smt().
qed.
