%% A model of an exchange for the simulator, with the merge rule of libheal and without the NIF.
%%
%% The verdict of a clash is a hash of its name and the seed. Serials, seeds and dead processes are in the process dictionary.
%% A model with a fault shows what the simulator finds: `side_decides' gives the halves different verdicts, `deaf' ignores what the
%% other half has withdrawn.
-module(heal_sim_world).

-export([start/1, end_process/1]).
-export([prepare/4, update/3, open/3, hear/2, withdraw/2, close/1, finish/3, rulings/1, seed/0, serial/0, is_alive/1]).

-record(handle, {side, seed = none, names, other = none, withdrawn = [], is_closed = false}).

start(Fault) ->
    put({?MODULE, fault}, Fault),
    put({?MODULE, dead}, #{}),
    put({?MODULE, serial}, 0).

end_process(Pid) ->
    put({?MODULE, dead}, (get({?MODULE, dead}))#{Pid => true}).

is_alive(Pid) ->
    not is_map_key(Pid, get({?MODULE, dead})).

serial() ->
    put({?MODULE, serial}, get({?MODULE, serial}) + 1) + 1.

seed() ->
    rand:uniform(1 bsl 32).

prepare(Side, Names, _Programs, _Limit) ->
    {ok, #handle{side = Side, names = maps:map(fun(_, Row) -> heal_row:registration(Row) end, Names)}}.

update(Put, Gone, Handle = #handle{names = Names}) ->
    New = maps:from_list([{Name, heal_row:registration(Row)} || {Name, Row} <- Put]),
    {ok, Handle#handle{names = maps:merge(maps:without(Gone, Names), New)}}.

open(_Number, Seed, Handle = #handle{side = Side, names = Names}) ->
    {ok, {Side, Seed, Names}, Handle#handle{seed = Seed}}.

hear({Side, Seed, Names}, Handle = #handle{side = Own, seed = Seed}) when Side =/= Own ->
    {ok, Handle#handle{other = Names}}.

withdraw(_Name, #handle{is_closed = true}) -> late;
withdraw(Name, Handle = #handle{withdrawn = Withdrawn}) -> {ok, Handle#handle{withdrawn = [Name | Withdrawn]}}.

close(Handle = #handle{withdrawn = Withdrawn}) ->
    {ok, Withdrawn, Handle#handle{is_closed = true}}.

%% Returns how many names clash, what the side loses by that, and all rulings; and what the merge has under these names. A winner that is
%% withdrawn leaves the name without an owner.
finish(Heard, Names, #handle{side = Side, names = Own, other = Other, withdrawn = Ours, seed = Seed}) ->
    Theirs = case get({?MODULE, fault}) of deaf -> []; _ -> Heard end,
    {A, B, GoneA, GoneB} = case Side of a -> {Own, Other, Ours, Theirs}; b -> {Other, Own, Theirs, Ours} end,
    Clashes = [clash(Name, One, maps:get(Name, B), {Seed, drawn(Side)}) || {Name, One} <- lists:sort(maps:to_list(A)), is_map_key(Name, B)],
    Alone = maps:merge(maps:without(maps:keys(B) ++ GoneA, A), maps:without(maps:keys(A) ++ GoneB, B)),
    Won = maps:from_list([{Name, Winner} || Clash = #{name := Name} <- Clashes, Winner <- winner(Clash, GoneA, GoneB)]),
    Merged = maps:merge(Alone, Won),
    Losses = [loss(Clash, Side, maps:get(Name, Merged, none)) || Clash = #{name := Name} <- Clashes,
                                                                 maps:get(Name, Merged, none) =/= map_get(Name, Own)],
    {ok, {length(Clashes), Losses, [ruling(Clash) || Clash <- Clashes]},
     [{Name, values(Registration)} || Name <- Names, #{Name := Registration} <- [Merged]], [Name || Name <- Names, not is_map_key(Name, Merged)]}.

rulings(Rulings) -> Rulings.

loss(#{name := Name, first := First, second := Second, verdict := Verdict, first_half := Half}, Side, Kept) ->
    {#{owner := Owner}, Position} = case Half of Side -> {First, first}; _ -> {Second, second} end,
    {Name, Owner, Position, Verdict, maps:get(resolver, First), case Kept of none -> none; _ -> values(Kept) end}.

values(#{owner := {Node, Serial}, stamp := Stamp, weight := Weight, extra := Extra, resolver := Resolver}) ->
    {Serial, Stamp, {Node, Weight, Extra, Resolver}}.

ruling(#{name := Name, first := First, second := Second, verdict := Verdict, first_half := Half}) ->
    #{owner := OfFirst, resolver := Resolver} = First,
    #{owner := OfSecond} = Second,
    {Name, OfFirst, OfSecond, Half, Verdict, Resolver}.

drawn(Side) ->
    case get({?MODULE, fault}) of
        side_decides -> Side;
        _ -> both
    end.

clash(Name, OfA, OfB, Seed) ->
    Ordered = [#{resolver := Resolver}, _] = lists:sort(fun(#{owner := X}, #{owner := Y}) -> X =< Y end, [OfA, OfB]),
    [First, Second] = Ordered,
    Verdict = case {Resolver, erlang:phash2({Name, Seed}, 2)} of
        {notify_all, _} -> neither;
        {_, 0} -> first;
        {_, 1} -> second
    end,
    #{name => Name, first => First, second => Second, verdict => Verdict,
      first_half => case First of OfA -> a; _ -> b end}.

winner(#{verdict := neither}, _, _) ->
    [];
winner(#{name := Name, verdict := Verdict, first_half := Half, first := First, second := Second}, GoneA, GoneB) ->
    {Winner, Of} = case {Verdict, Half} of
        {first, _} -> {First, Half};
        {second, a} -> {Second, b};
        {second, b} -> {Second, a}
    end,
    Gone = case Of of a -> GoneA; b -> GoneB end,
    case lists:member(Name, Gone) of
        true -> [];
        false -> [Winner]
    end.
