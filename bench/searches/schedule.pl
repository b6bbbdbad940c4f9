% the same search: each job that may come now, at its earliest, on either machine; a shorter plan each time, and the last one is taken back
long([3,2,6,4,5,2,7,3,4,1]).
before(1,3). before(1,4). before(2,5). before(3,6). before(4,6). before(4,7). before(5,8). before(6,9). before(8,9). before(7,10). before(9,10).
plan(10,_,_,_,_,_,_) :- !.
plan(Placed,F1,F2,Best,Long,Start,Where) :- between(1,10,K), arg(K,Start,S), var(S), ready(1,K,Long,Start,0,At0), between(1,2,M),
  ( M =:= 1 -> At is max(At0,F1) ; At is max(At0,F2), F1 =\= F2 ), arg(K,Long,L), End is At+L, End < Best, S = At, arg(K,Where,M), Next is Placed+1,
  ( M =:= 1 -> plan(Next,End,F2,Best,Long,Start,Where) ; plan(Next,F1,End,Best,Long,Start,Where) ).
ready(11,_,_,_,At,At) :- !.
ready(L,K,Long,Start,At,Out) :- ( before(L,K) -> arg(L,Start,S), nonvar(S), arg(L,Long,N), At1 is max(At,S+N) ; At1 = At ), L1 is L+1, ready(L1,K,Long,Start,At1,Out).
end(Long,Start,End) :- findall(E,(between(1,10,K),arg(K,Start,S),arg(K,Long,L),E is S+L),Es), max_list(Es,End).
better(Best,Long,Start,Where) :- functor(Start,s,10), functor(Where,w,10), once(plan(0,0,0,Best,Long,Start,Where)).
search(Best,Long,S0,W0,S,W) :- ( findall(A-B,better(Best,Long,A,B),[S1-W1]) -> end(Long,S1,E), format("a plan of length ~w~n",[E]), search(E,Long,S1,W1,S,W) ; S = S0, W = W0 ).
main :- long(Ls), Long =.. [l|Ls], search(1000,Long,none,none,S,W),
  forall(between(1,10,K),(arg(K,S,A),arg(K,W,M),arg(K,Long,L),E is A+L,format("job ~w: machine ~w, ~w to ~w~n",[K,M,A,E]))).
:- initialization((main,halt)).
