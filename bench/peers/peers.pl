% Document 000's examples 2 and 3 for a Prolog system: how long unify_with_occurs_check takes on them.
% Written for SWI-Prolog and GNU Prolog alike.

% f(X1, .., Xn) and f(a1, .., an)
example(2, N, Left, Right) :-
    functor(Left, f, N),
    numbered(1, N, As),
    Right =.. [f|As].

% f(g(X1,X1), .., g(Xn-1,Xn-1), Y2, .., Yn, Yn) and f(X2, .., Xn, g(Y1,Y1), .., g(Yn-1,Yn-1), Xn)
example(3, N, Left, Right) :-
    length(Xs, N),
    length(Ys, N),
    all_but_last(Xs, Xs1, Xn),
    all_but_last(Ys, Ys1, Yn),
    doubled(Xs1, GXs),
    doubled(Ys1, GYs),
    Xs = [_|Xs2],
    Ys = [_|Ys2],
    append(Ys2, [Yn], LeftEnd),
    append(GXs, LeftEnd, Lefts),
    append(GYs, [Xn], RightEnd),
    append(Xs2, RightEnd, Rights),
    Left =.. [f|Lefts],
    Right =.. [f|Rights].

numbered(I, N, []) :- I > N, !.
numbered(I, N, [A|As]) :-
    number_codes(I, Codes),
    atom_codes(A, [0'a|Codes]),
    I1 is I + 1,
    numbered(I1, N, As).

all_but_last([X], [], X) :- !.
all_but_last([X|Xs], [X|Front], Last) :- all_but_last(Xs, Front, Last).

doubled([], []).
doubled([X|Xs], [g(X, X)|Gs]) :- doubled(Xs, Gs).

% Failing undoes the bindings, and leaves no garbage for systems that collect none.
unify_times(K, Left, Right) :- between(1, K, _), unify_with_occurs_check(Left, Right), fail.
unify_times(_, _, _).

% The same loop with nothing to unify: what it takes is subtracted.
nothing_times(K) :- between(1, K, _), unify_with_occurs_check(a, a), fail.
nothing_times(_).

milliseconds(Goal, Time) :-
    statistics(runtime, [Began, _]),
    call(Goal),
    statistics(runtime, [Ended, _]),
    Time is Ended - Began.

% So many times that the clock of milliseconds is fine enough.
enough(K, Left, Right, Enough) :-
    milliseconds(unify_times(K, Left, Right), Time),
    (   Time >= 100 -> Enough = K
    ;   K2 is K * 2, enough(K2, Left, Right, Enough)
    ).

best(0, _, Best, Best) :- !.
best(Rounds, Goal, Sofar, Best) :-
    milliseconds(Goal, Time),
    Least is min(Time, Sofar),
    Rounds1 is Rounds - 1,
    best(Rounds1, Goal, Least, Best).

measure(Example, N) :-
    example(Example, N, Left, Right),
    enough(1, Left, Right, K),
    best(10, unify_times(K, Left, Right), 1000000, With),
    best(10, nothing_times(K), 1000000, Without),
    Nanoseconds is (With - Without) * 1000000 // K,
    write(nanoseconds(Nanoseconds)), nl.
