% SWI-Prolog's library(yaml) over a file: the term that it reads, and what it writes of that.
%
%     swipl prolog_client.pl FILE..
:- use_module(library(yaml)).
:- initialization(main, main).

show(Path) :-
    format("~n@@ ~w~n", [Path]),
    (   catch(read_and_write(Path), Error, told(Error))
    ->  true
    ;   writeln(fails)
    ).

read_and_write(Path) :-
    setup_call_cleanup(open(Path, read, In), yaml_read(In, Value), close(In)),
    print(Value), nl,
    yaml_write(user_output, Value), nl.

told(error(Error, _)) :- !, print(Error), nl.
told(Error) :- print(Error), nl.

main(Paths) :- maplist(show, Paths).
