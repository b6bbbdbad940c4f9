% the same search: each parcel into the bins that are open, then into the next one; what a full bin wastes is counted; room by setarg, undone
pack(K,_,_,N,_,_,_,_) :- K > N, !.
pack(K,Opened,Left,N,Bins,Size,Room,Bin) :- Most is min(Opened+1,Bins), between(1,Most,B), arg(B,Room,R), arg(K,Size,S), R >= S,
  R1 is R-S, setarg(B,Room,R1), arg(K,Bin,B), arg(N,Size,Least), ( K < N, R1 < Least -> Left >= R1, Left1 is Left-R1 ; Left1 = Left ),
  Opened1 is max(Opened,B), K1 is K+1, pack(K1,Opened1,Left1,N,Bins,Size,Room,Bin).
main :- read_line_to_string(user_input,A), number_string(Capacity,A), read_line_to_string(user_input,B), split_string(B," "," ",Ss),
  maplist([S,M]>>number_string(M,S),Ss,Sizes), length(Sizes,N), sum_list(Sizes,Total), Size =.. [s|Sizes], First is (Total+Capacity-1)//Capacity,
  between(First,N,Bins), length(Rooms,N), maplist(=(Capacity),Rooms), Room =.. [r|Rooms], functor(Bin,b,N), Left is Bins*Capacity-Total,
  pack(1,0,Left,N,Bins,Size,Room,Bin), !, format("~w bins~n",[Bins]),
  forall(between(1,Bins,I),(format("~w:",[I]), forall((arg(K,Bin,I),arg(K,Size,S)),format(" ~w",[S])), nl)).
:- initialization((main,halt)).
