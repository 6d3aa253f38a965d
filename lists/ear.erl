%% What listens on the other node (lists/heard): it says back what it hears. It's loaded when its atoms have their places in the cache.
-module(ear).
-export([hear/2, fresh/0, bound/2]).

%% Back goes a message (0) or an exit (1).
hear(How, To) ->
    process_flag(trap_exit, true),
    listen(How, To).

listen(How, To) ->
    back(How, To, heard()),
    listen(How, To).

heard() ->
    receive
        {1, Name} -> _ = (catch unregister(Name)), register(Name, self()), Name;
        {2, Pid} -> link(Pid), Pid;
        {3, Pid} -> monitor(process, Pid);
        {4, Reason} -> exit(Reason);
        {'EXIT', _, Reason} -> Reason;
        {'DOWN', _, _, _, Reason} -> Reason;
        Term -> Term
    end.

back(0, To, Term) -> To ! Term;
back(1, To, Term) -> exit(To, Term).

%% Functions to send: with no free terms, and with two.
fresh() -> fun() -> 1 end.

bound(A, B) -> fun(C) -> {A, B, C} end.
