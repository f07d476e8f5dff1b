% division.lp: document 01's valid division for clingo, which nobody here wrote. The facts: variable(V), pen(P,Heads),
% gate(P,Q,Lit), size(P,Size), size_lit(P,Size,Lit) for "Size or more", and lists of literals, in(List,Lit).
{ true(V) } :- variable(V).
holds(2*V) :- variable(V), true(V).
holds(2*V+1) :- variable(V), not true(V).
joined(P,P) :- pen(P,_).
joined(P,R) :- joined(P,Q), gate(Q,R,L), not holds(L).
joined(P,R) :- joined(P,Q), gate(R,Q,L), not holds(L).
:- gate(P,Q,L), holds(L), joined(P,Q).
permitted(P) :- size(P,S), S = #sum { W,Q : joined(P,Q), pen(Q,W) }.
:- size(P,_), not permitted(P).
:- size_lit(P,S,L), holds(L), S > #sum { W,Q : joined(P,Q), pen(Q,W) }.
:- size_lit(P,S,L), not holds(L), S <= #sum { W,Q : joined(P,Q), pen(Q,W) }.
% One list is picked, and all of it holds: no model is left where every list is refuted.
1 { picked(K) : list(K) } 1 :- list(_).
:- picked(K), in(K,L), not holds(L).
#show true/1.
#show picked/1.
