% The store in SWI-Prolog: statements, explicit facts, and the kept facts with their supports, as document 01 defines them. Words are
% integers. A fact s p o is the clause fP(s, o) of the module `rows` where it is explicit and kP(s, o) where it is kept, one predicate
% for each property, so that the indexes that Prolog makes by itself serve every atom; supports are in a trie.

:- module(store, [clear/0, add/1, withdraw/1, work/0, kept/4]).
:- use_module(library(ordsets)).

% statement(S, P, O): an explicit statement. stated(S, P, O): a statement that questions match, explicit or joined by one or more steps;
% these are clauses too, made anew when the statements change. property(P): there are rows of this property. name(Kind, P, Name): the name
% of its rows, explicit (f) or kept (k). working: the kept facts and what questions match are kept up to date.
:- dynamic statement/3, stated/3, property/1, name/3, working/0.

% A property without rows has no predicate, and matches nothing.
:- set_prolog_flag(rows:unknown, fail).

% Steps between classes and properties are worked out once, until the statements change.
:- table above/3, types/3.

%!  clear: an empty store.
clear :-
    forall(property(P), ( row(f, P, _, _, F), retractall(F), row(k, P, _, _, K), retractall(K) )),
    retractall(statement(_, _, _)),
    retractall(stated(_, _, _)),
    retractall(property(_)),
    retractall(name(_, _, _)),
    retractall(working),
    forget.

%!  forget: the supports and the steps known are dropped.
forget :-
    trie_new(Supports),
    nb_setval(supports, Supports),
    abolish_all_tables.

%!  row(+Kind, +P, ?S, ?O, -Clause): the clause for a row of a property, explicit (f) or kept (k).
row(Kind, P, S, O, rows:Clause) :-
    atom_concat(Kind, P, Name),
    Clause =.. [Name, S, O].

%!  add(+Triple): a triple that is not there enters.
add(t(S, P, O)) :-
    between(2, 5, P), !,
    change(assertz(statement(S, P, O))).
add(t(S, P, O)) :-
    row(f, P, S, O, Clause),
    (   property(P) -> true ; declare(P) ),
    assertz(Clause),
    (   working -> forall(carried(t(S, P, O), Row), raise(Row)) ; true ).

%!  withdraw(+Triple): a triple that is there leaves.
withdraw(t(S, P, O)) :-
    between(2, 5, P), !,
    change(retract(statement(S, P, O))).
withdraw(t(S, P, O)) :-
    row(f, P, S, O, Clause),
    retract(Clause), !,
    forall(carried(t(S, P, O), Row), lower(Row)).

%!  declare(+P): predicates for the rows of a property.
declare(P) :-
    assertz(property(P)),
    forall(member(Kind, [f, k]), ( atom_concat(Kind, P, Name), dynamic(rows:Name/2), assertz(name(Kind, P, Name)) )).

%!  work: the kept facts and the statements that questions match are worked out afresh.
work :-
    retractall(working),
    forall(property(P), ( row(k, P, _, _, K), retractall(K) )),
    forget,
    close,
    forall(( explicit(_, Fact), carried(Fact, Row) ), raise(Row)),
    assertz(working).

%!  close: the statements that questions match are made anew.
close :-
    retractall(stated(_, _, _)),
    forall(joined(S, P, O), assertz(stated(S, P, O))).

%!  joined(-S, -P, -O): each statement that questions match, once: a pair that one or more subclass or subproperty steps join, or an
%   explicit domain or range.
joined(S, P, O) :-
    member(P, [2, 3]),
    setof(Next, statement(S, P, Next), Nexts),
    maplist(above(P), Nexts, Sets),
    append(Sets, All),
    sort(All, Os),
    member(O, Os).
joined(S, P, O) :-
    member(P, [4, 5]),
    statement(S, P, O).

%!  explicit(?P, -Fact): an explicit fact.
explicit(P, t(S, P, O)) :-
    property(P),
    row(f, P, S, O, Clause),
    call(Clause).

%!  kept(-S, -P, -O, -Support): a kept fact.
kept(S, P, O, Support) :-
    nb_getval(supports, Supports),
    trie_gen(Supports, t(S, P, O), Support).

%!  raise(+Row): one more explicit fact carries a row.
raise(Row) :-
    nb_getval(supports, Supports),
    (   trie_lookup(Supports, Row, N)
    ->  N1 is N + 1,
        trie_update(Supports, Row, N1)
    ;   trie_insert(Supports, Row, 1),
        Row = t(S, P, O),
        (   property(P) -> true ; declare(P) ),
        row(k, P, S, O, Clause),
        assertz(Clause)
    ).

%!  lower(+Row): one explicit fact less carries a row.
lower(Row) :-
    nb_getval(supports, Supports),
    trie_lookup(Supports, Row, N),
    (   N > 1
    ->  N1 is N - 1,
        trie_update(Supports, Row, N1)
    ;   trie_delete(Supports, Row, _),
        Row = t(S, P, O),
        row(k, P, S, O, Clause),
        retract(Clause)
    ), !.

%!  carried(+Fact, -Row): the rows that a fact carries, each once.
carried(t(S, 1, C), t(S, 1, D)) :- !,
    above(2, C, Ds),
    member(D, Ds).
carried(t(S, P, O), t(S, Q, O)) :-
    above(3, P, Qs),
    member(Q, Qs).
carried(t(S, P, _), t(S, 1, C)) :-
    types(4, P, Cs),
    member(C, Cs).
carried(t(S, P, O), t(O, 1, C)) :-
    O < 0x80000000,
    types(5, P, Cs),
    member(C, Cs),
    \+ ( S == O, types(4, P, Ds), memberchk(C, Ds) ).

%!  above(+P, +Word, -Set): what a class (P is 2) or property (P is 3) leads to by zero or more steps.
above(P, Word, Set) :-
    spread([Word], P, [Word], Set).

%!  spread(+Todo, +P, +Seen, -Set): the worklist.
spread([], _, Set, Set).
spread([Word|Todo], P, Seen, Set) :-
    findall(Next, ( statement(Word, P, Next), \+ memberchk(Next, Seen) ), Found),
    sort(Found, New),
    append(New, Todo, Todo1),
    append(New, Seen, Seen1),
    spread(Todo1, P, Seen1, Set).

%!  types(+K, +P, -Set): the classes that a property gives its subject (K is 4) or object (K is 5).
types(K, P, Set) :-
    above(3, P, Qs),
    findall(D, ( member(Q, Qs), statement(Q, K, C), above(2, C, Ds), member(D, Ds) ), All),
    sort(All, Set).

%!  change(:Change): a statement enters or leaves. What leads from where to where is compared before and after, and the supports of
%   the rows that the facts carry by such a step alone are changed.
change(Change) :-
    \+ working, !,
    call(Change).
change(Change) :-
    steps(Old),
    call(Change), !,
    abolish_all_tables,
    close,
    steps(New),
    ord_subtract(New, Old, In),
    ord_subtract(Old, New, Out),
    forall(( member(Step, In), carried_by(Step, Row) ), raise(Row)),
    forall(( member(Step, Out), carried_by(Step, Row) ), lower(Row)).

%!  steps(-Steps): each step(Kind, Source, Target) of the statements, in order; the kinds are those of document 01's alternatives, and
%   loop: by domain or range, for a fact whose object is its subject.
steps(Steps) :-
    findall(Step, step(Step), All),
    sort(All, Steps).

step(step(Kind, Source, Target)) :-
    member(Kind-P, [class-2, property-3]),
    statement(Source, P, _),
    above(P, Source, Targets),
    member(Target, Targets),
    Target =\= Source.
step(step(Kind, Source, Target)) :-
    member(Kind-K, [domain-4, range-5, loop-4, loop-5]),
    member(P, [3, 4, 5]),
    statement(Source, P, _),
    types(K, Source, Targets),
    member(Target, Targets).

%!  carried_by(+Step, -Row): a row that an explicit fact carries by this step.
carried_by(step(class, C, D), t(S, 1, D)) :-
    row(f, 1, S, C, Clause),
    call(Clause).
carried_by(step(property, P, Q), t(S, Q, O)) :-
    explicit(P, t(S, P, O)).
carried_by(step(domain, P, C), t(S, 1, C)) :-
    explicit(P, t(S, P, O)),
    S =\= O.
carried_by(step(range, P, C), t(O, 1, C)) :-
    explicit(P, t(S, P, O)),
    S =\= O,
    O < 0x80000000.
carried_by(step(loop, P, C), t(S, 1, C)) :-
    explicit(P, t(S, P, S)).
