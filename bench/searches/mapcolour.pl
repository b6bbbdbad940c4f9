% the same search: the states in order, for each the colours in order, tested against all states before it
border(bw,by). border(bw,he). border(bw,rp). border(by,he). border(by,sn). border(by,th). border(be,bb). border(bb,mv). border(bb,ni). border(bb,sn).
border(bb,st). border(hb,ni). border(hh,ni). border(hh,sh). border(he,ni). border(he,nw). border(he,rp). border(he,th). border(mv,ni). border(mv,sh).
border(ni,nw). border(ni,sh). border(ni,st). border(ni,th). border(nw,rp). border(rp,sl). border(sn,st). border(sn,th). border(st,th).
states([bw,by,be,bb,hb,hh,he,mv,ni,nw,rp,sl,sn,st,sh,th]).
:- dynamic next/2.
prepare :- states(L), forall((border(P,Q), nth1(I,L,P), nth1(J,L,Q)), (assertz(next(I,J)), assertz(next(J,I)))).
paint(17,_,_) :- !.
paint(S,Limit,B) :- between(0,3,C), C < Limit, fits(1,S,C,B), arg(S,B,C), S1 is S+1, paint(S1,Limit,B).
fits(17,_,_,_) :- !.
fits(T,S,C,B) :- \+ (T < S, next(S,T), arg(T,B,D), D =:= C), T1 is T+1, fits(T1,S,C,B).
board(B) :- functor(B,colours,16).
try(Limit,B) :- board(B), ( paint(1,Limit,B) -> format("~w colours are enough~n",[Limit]) ; format("~w colours are too few~n",[Limit]), fail ).
main :- prepare, between(1,4,Limit), try(Limit,B), !, B =.. [_|Cs], findall(N,(member(C,Cs),nth0(C,[red,green,blue,yellow],N)),Ns),
  atomic_list_concat(Ns,' ',A), write(A), nl, findall(x,(board(D),paint(1,3,D)),Ws), length(Ws,Ways), format("~w ways in 3 colours~n",[Ways]).
:- initialization((main,halt)).
