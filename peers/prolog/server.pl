% SWI-Prolog behind the line protocol of peers/jena: words are decimal, and each command is answered by lines of rows, where it has any,
% and a last line that starts with "ok" or "error".
%
%   clear             an empty store
%   add N             takes N lines of three words each                                 ok NANOSECONDS
%   withdraw N        likewise takes them out                                           ok NANOSECONDS
%   work              works the kept facts out afresh                                   ok NANOSECONDS
%   facts             a row of four words for each kept fact: the triple, its support   ok COUNT
%   ask HEAD :- BODY  a row for each answer; HEAD is r(V, ..), BODY calls rows of the store ok COUNT
%   time N HEAD :- BODY   answers N times, without giving the rows                      ok COUNT NANOSECONDS, N of them
%
% After "work", "add" and "withdraw" keep the kept facts up to date. The nanoseconds do not count the reading of lines.

:- use_module(store).
:- use_module(library(readutil)).

:- initialization(main, main).

main :-
    clear,
    repeat,
    read_line_to_string(user_input, Line),
    (   Line == end_of_file
    ->  !
    ;   answer(Line),
        fail
    ).

%!  answer(+Line): answers one command.
answer(Line) :-
    command(Line, Command, Rest),
    (   catch(run(Command, Rest, Reply), Error, ( print_message(error, Error), Reply = ["error in ", Command] ))
    ->  true
    ;   Reply = ["error: failed: ", Command]
    ),
    atomic_list_concat(Reply, Text),
    writeln(Text),
    flush_output.

%!  command(+Line, -Command, -Rest): the text up to the first space, and the text behind it.
command(Line, Command, Rest) :-
    sub_string(Line, Before, 1, After, " "), !,
    sub_string(Line, 0, Before, _, Command),
    sub_string(Line, _, After, 0, Rest).
command(Line, Line, "").

%!  run(+Command, +Rest, -Reply): runs a command: the parts of its last line.
run("clear", _, ["ok"]) :-
    clear.
run("add", Count, ["ok ", Time]) :-
    triples(Count, Triples),
    nanoseconds(maplist(add, Triples), Time).
run("withdraw", Count, ["ok ", Time]) :-
    triples(Count, Triples),
    nanoseconds(maplist(withdraw, Triples), Time).
run("work", _, ["ok ", Time]) :-
    nanoseconds(work, Time).
run("facts", _, ["ok ", Count]) :-
    aggregate_all(count, ( kept(S, P, O, N), print_row([S, P, O, N]) ), Count).
run("ask", Text, ["ok ", Count]) :-
    compile(Text, Head),
    answers(Head, Rows),
    forall(member(Row, Rows), ( Row =.. [_|Words], print_row(Words) )),
    length(Rows, Count).
run("time", Text, ["ok ", Count, Times]) :-
    command(Text, N, Question),
    number_string(Runs, N),
    compile(Question, Head),
    findall(Rows-Time, ( between(1, Runs, _), nanoseconds(answers(Head, All), Time), length(All, Rows) ), Each),
    Each = [Count-_|_],
    foldl([_-T, Before, After]>>format(string(After), "~w ~w", [Before, T]), Each, "", Times).

%!  triples(+Count, -Triples): the triples on so many lines.
triples(Count, Triples) :-
    number_string(N, Count),
    length(Triples, N),
    maplist(read_triple, Triples).

read_triple(t(S, P, O)) :-
    read_line_to_codes(user_input, Codes),
    split_string(Codes, " ", "", Texts),
    maplist([Text, Word]>>number_codes(Word, Text), Texts, [S, P, O]).

print_row(Words) :-
    atomic_list_concat(Words, ' ', Text),
    writeln(Text).

%!  compile(+Text, -Head): makes a question the only clause of its head.
compile(Text, rows:Head) :-
    term_to_atom((Head :- Body), Text),
    functor(Head, Name, Arity),
    abolish(rows:Name, Arity),
    rows:assertz((Head :- Body)).

%!  answers(:Head, -Rows): the distinct rows of the question, in order.
answers(Module:Head, Rows) :-
    findall(Head, Module:Head, All),
    sort(All, Rows).

%!  nanoseconds(:Goal, -Time): runs a goal once, by the clock.
nanoseconds(Goal, Time) :-
    get_time(Start),
    once(Goal),
    get_time(End),
    Time is round((End - Start) * 1.0e9).
