%% heal_registry over a network that loses packets in silence, as most real splits do: connections break after the kernel's tick, or never.
%%
%% Nodes a and b are in one network namespace of Linux, and c in another one. This needs root and the command `ip'; without them, or where
%% the system makes no namespace, it prints that it is skipped.
-module(heal_silence_tests).

-include_lib("eunit/include/eunit.hrl").

-define(REGISTER, {heal_registry, register}).
-define(EDIT, 1000).
%% A node counts as gone when it is silent for two seconds.
-define(OPTIONS, #{edit_timeout => ?EDIT, exchange_timeout => 1000, reconnect_interval => 200}).
-define(LEFT, "10.77.0.1").
-define(RIGHT, "10.77.0.2").

silence_test_() ->
    case network() of
        {ok, Network} ->
            remove(Network),
            {inparallel, 4, [
                over(fun both_are_silent/2, []),
                over(fun left_is_silent/2, []),
                over(fun right_is_silent/2, []),
                over(fun broken_by_the_tick/2, ["-kernel", "net_ticktime", "4"])
            ]};
        {error, Reason} ->
            io:format(user, "heal_silence_tests: skipped: ~ts~n", [string:trim(Reason)]),
            []
    end.

%% ---- The network ----

%% Makes two namespaces with a link between them.
network() ->
    Both = {Left, Right} = {name("left"), name("right")},
    Steps = [["netns add ", Left], ["netns add ", Right],
             ["link add heal netns ", Left, " type veth peer name heal netns ", Right]
            | lists:append([[["-n ", Of, " addr add ", Address, "/24 dev heal"], ["-n ", Of, " link set lo up"], ["-n ", Of, " link set heal up"]]
                            || {Of, Address} <- [{Left, ?LEFT}, {Right, ?RIGHT}]])],
    case [Printed || Step <- Steps, Printed <- [ip(Step)], Printed =/= ""] of
        [] -> {ok, Both};
        [First | _] -> remove(Both), {error, First}
    end.

name(Side) ->
    lists:concat(["heal_", os:getpid(), "_", erlang:unique_integer([positive]), "_", Side]).

ip(Words) ->
    os:cmd(lists:flatten(["ip ", Words, " 2>&1"])).

%% Removes the namespaces, with what still runs there, as the daemon of the nodes' ports does.
remove({Left, Right}) ->
    [begin
        [os:cmd("kill -9 " ++ Pid) || Pid <- string:lexemes(ip(["netns pids ", Of]), "\n"), lists:all(fun(C) -> C >= $0 andalso C =< $9 end, Pid)],
        ip(["netns del ", Of])
     end || Of <- [Left, Right]].

%% All packets of a side are lost: they go to an address that no interface has.
lose_left({Left, _}) -> lose(Left, ?RIGHT).

lose_right({_, Right}) -> lose(Right, ?LEFT).

lose(From, To) -> "" = ip(["-n ", From, " neigh replace ", To, " lladdr 02:00:00:00:00:01 dev heal nud permanent"]).

mend_left({Left, _}) -> mend(Left, ?RIGHT).

mend_right({_, Right}) -> mend(Right, ?LEFT).

mend(From, To) -> "" = ip(["-n ", From, " neigh del ", To, " dev heal"]).

%% ---- Nodes ----

%% Runs a test on nodes a and b on the left and c on the right, whose registries are one part.
over(Test, Args) ->
    {setup,
        fun() ->
            {ok, Both = {Left, Right}} = network(),
            Nodes = [start(Name, Of, Address, Args) || {Name, Of, Address} <- [{a, Left, ?LEFT}, {b, Left, ?LEFT}, {c, Right, ?RIGHT}]],
            [heal_cluster:start_registry(It, any, ?OPTIONS) || It <- Nodes],
            {Both, Nodes}
        end,
        fun({Both, Nodes}) -> [heal_cluster:stop(It) || It <- Nodes], remove(Both) end,
        fun({Both, Nodes}) ->
            {name, Name} = erlang:fun_info(Test, name),
            {atom_to_list(Name), {timeout, 240, fun() -> heal_cluster:mesh(Nodes), heal_cluster:one_part(Nodes), Test(Both, Nodes) end}}
        end}.

start(Name, Of, Address, Args) ->
    Path = [filename:absname(Dir) || Dir <- ["ebin", "out"]],
    {ok, Peer, Node} = peer:start(#{
        name => Name,
        host => Address,
        longnames => true,
        connection => standard_io,
        wait_boot => 60000,
        exec => {os:find_executable("ip"), ["netns", "exec", Of, os:find_executable("erl")]},
        args => ["-setcookie", "heal_tests", "-pa"] ++ Path ++ ["-kernel", "logger_level", "critical", "-connect_all", "false"] ++ Args
    }),
    {Peer, Node}.

own(It, Name) ->
    heal_cluster:own(It, ?REGISTER, Name, #{resolver => notify}).

whereis(It, Name) ->
    heal_cluster:call(It, heal_registry, whereis_name, [Name]).

members(It) ->
    maps:get(members, heal_cluster:status(It)).

alone(It) ->
    heal_cluster:eventually(fun() -> members(It) =:= [heal_cluster:node_of(It)] end).

answered(Call) ->
    {Time, Answer} = timer:tc(Call),
    ?assert(Time < 5 * ?EDIT * 1000),
    Answer.

%% Exactly one of the two processes has the name, and the other one a notice.
decided(Name, Nodes, Two = [{OnOne, One}, {OnOther, Other}]) ->
    #{Name := Winner} = maps:from_list(heal_cluster:one_part(Nodes)),
    ?assert(lists:member(Winner, [One, Other])),
    Mail = [{Pid, heal_cluster:mail(It, Pid)} || {It, Pid} <- [{OnOne, One}, {OnOther, Other}]],
    heal_cluster:eventually(fun() -> [heal_cluster:mail(It, Pid) || {It, Pid} <- Two, Pid =/= Winner] =:= [[{global_name_conflict, Name}]] end),
    ?assertEqual([], proplists:get_value(Winner, Mail)).

%% ---- Tests ----

%% Neither side hears the other.
both_are_silent(Both, Nodes) ->
    silent(fun() -> lose_left(Both), lose_right(Both) end, fun() -> mend_left(Both), mend_right(Both) end, Nodes).

left_is_silent(Both, Nodes) ->
    silent(fun() -> lose_left(Both) end, fun() -> mend_left(Both) end, Nodes).

right_is_silent(Both, Nodes) ->
    silent(fun() -> lose_right(Both) end, fun() -> mend_right(Both) end, Nodes).

%% No connection breaks. The side without the primary goes on alone, and both heal.
silent(Lose, Mend, Nodes = [A, B, C]) ->
    Kept = own(B, kept),
    Other = own(C, other),
    heal_cluster:one_part(Nodes),
    Lose(),
    OnA = answered(fun() -> own(A, db) end),
    alone(C),
    ?assertEqual([A, B], [It || It <- Nodes, lists:member(heal_cluster:node_of(C), heal_cluster:call(It, erlang, nodes, []))]),
    ?assertEqual(undefined, whereis(C, kept)),
    OnC = answered(fun() -> own(C, db) end),
    ?assertEqual([Kept, OnA], [whereis(B, kept), whereis(B, db)]),
    Mend(),
    decided(db, Nodes, [{A, OnA}, {C, OnC}]),
    ?assertEqual([Kept, Other], [whereis(C, kept), whereis(A, other)]).

%% The kernel gives the silent connections up, and the registries connect again.
broken_by_the_tick(Both, Nodes = [A, B, C]) ->
    Kept = own(B, kept),
    heal_cluster:one_part(Nodes),
    lose_left(Both),
    lose_right(Both),
    [heal_cluster:eventually(fun() -> heal_cluster:call(It, erlang, nodes, []) -- [heal_cluster:node_of(B)] =:= [] end) || It <- [A, C]],
    Two = [{It, answered(fun() -> own(It, db) end)} || It <- [A, C]],
    mend_left(Both),
    mend_right(Both),
    decided(db, Nodes, Two),
    ?assertEqual(Kept, whereis(C, kept)).
