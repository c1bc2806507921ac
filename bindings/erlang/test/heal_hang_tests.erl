%% heal_registry when the other node hangs, reads slowly, is hidden, or isn't connected.
-module(heal_hang_tests).

-include_lib("eunit/include/eunit.hrl").

-export([churn_here/2]).

-define(REGISTER, {heal_registry, register}).
-define(EDIT, 400).

own(It, Name) ->
    heal_cluster:own(It, ?REGISTER, Name, #{}).

pid_on(Of) ->
    heal_cluster:call(Of, erlang, spawn, [heal_cluster, serve, [[]]]).

register_on(It, Name) ->
    heal_cluster:call(It, heal_registry, register, [Name, pid_on(It), #{}]).

plan(It, Plan) ->
    ok = heal_cluster:call(It, heal_faults, plan, [Plan]).

release(It) ->
    plan(It, none),
    heal_cluster:call(It, heal_faults, release, []).

%% Runs the function while the operating system's process of a node is stopped.
frozen(It, Call) ->
    Pid = heal_cluster:freeze(It),
    try
        Call()
    after
        heal_cluster:thaw(Pid)
    end.

soon(Call) ->
    within(10, Call).

within(Seconds, Call) ->
    {Time, Answer} = timer:tc(Call),
    ?assert(Time < Seconds * 1_000_000),
    Answer.

hang_test_() ->
    {inparallel, 3, [
        heal_cluster:pair(#{edit_timeout => ?EDIT}, fun leader_hangs/2),
        heal_cluster:pair(#{edit_timeout => ?EDIT, exchange_timeout => 1000}, fun other_hangs/2),
        heal_cluster:pair(#{exchange_timeout => 300000}, fun catches_up/2),
        heal_cluster:cluster(4, #{exchange_timeout => 300000}, ["+zdbbl", "1"], fun full_of_snapshots/1),
        heal_cluster:cluster(2, #{send => fun heal_faults:send/2, exchange_timeout => 300000}, fun keeps_order/1),
        heal_cluster:halves(#{edit_timeout => ?EDIT, exchange_timeout => 20000}, fun not_made/2),
        heal_cluster:halves(#{edit_timeout => ?EDIT, exchange_timeout => 500}, fun silent_leader/2),
        heal_cluster:halves(#{edit_timeout => ?EDIT, exchange_timeout => 500}, fun full_connection/2),
        heal_cluster:pair(#{}, ["-hidden"], fun hidden/2),
        heal_cluster:halves(#{reconnect_interval => 100}, fun reconnects/2)
    ]}.

%% The leader hangs: the other node's edits are answered in time, and it isn't known whether they are made.
leader_hangs(A, B) ->
    One = own(B, one),
    OnA = pid_on(A),
    frozen(A, fun() ->
        Call = fun(Function, Args) -> soon(fun() -> heal_cluster:call(B, heal_registry, Function, Args) end) end,
        ?assertEqual({error, {timeout, unknown}}, Call(register, [two, pid_on(B), #{}])),
        ?assertEqual(no, Call(register_name, [three, pid_on(B)])),
        ?assertEqual({error, {timeout, unknown}}, Call(unregister_name, [none])),
        ?assertEqual({error, {timeout, unknown}}, Call(register, [four, OnA, #{}])),
        ?assertMatch(#{link := joined}, Call(status, [])),
        ?assertEqual(One, heal_cluster:call(B, heal_registry, whereis_name, [one]))
    end),
    Five = own(B, five),
    Table = heal_cluster:alike(A, B),
    ?assertEqual([{five, Five}, {one, One}], [Entry || Entry = {Name, _} <- Table, lists:member(Name, [one, five])]),
    ?assert(is_map_key(two, maps:from_list(Table))).

%% The other node hangs: the leader's edits go on, also when the connection takes no more messages. Those are 240,000 for all nodes, and as
%% many for a subscriber there.
other_hangs(A, B) ->
    One = own(A, one),
    Subscriber = pid_on(B),
    ?assertEqual(ok, heal_cluster:call(A, heal_registry, subscribe, [Subscriber])),
    Churn = frozen(B, fun() -> within(40, fun() -> heal_cluster:call(A, ?MODULE, churn_here, [busy, 120000]) end) end),
    ?assertEqual([ok], Churn),
    heal_cluster:eventually(fun() -> lists:last([none | heal_cluster:mail(B, Subscriber)]) =:= {heal_registry, unsubscribed} end),
    Two = own(A, two),
    ?assertEqual([{one, One}, {two, Two}], heal_cluster:alike(A, B)).

%% A node that has read nothing for a while gets what it has missed once it reads again. The primary announces itself much later.
catches_up(A, B) ->
    ?assertEqual([ok], frozen(B, fun() -> heal_cluster:call(A, ?MODULE, churn_here, [busy, 120000]) end)),
    ?assertEqual(ok, register_on(B, one)),
    ?assertMatch([{one, _}], heal_cluster:alike(A, B)).

%% Snapshots fill the connections of a primary, and what follows them is refused: entries, and that the other nodes are members. These hear
%% so once their connections have room. The primary announces itself much later.
full_of_snapshots(Nodes = [A, B, C, D]) ->
    heal_cluster:split_into([[A, B], [C, D]]),
    [heal_cluster:one_part(Side) || Side <- [[A, B], [C, D]]],
    heal_cluster:own_each(C, ?REGISTER, [{name, N} || N <- lists:seq(1, 3000)], #{}),
    Churn = spawn_monitor(fun() -> exit(heal_cluster:call(A, ?MODULE, churn_here, [busy, 20000])) end),
    heal_cluster:mesh(Nodes),
    {Time, Table} = timer:tc(fun() -> heal_cluster:one_part(Nodes) end),
    ?assert(Time < 30_000_000),
    ?assertEqual(3000, length(Table -- [{busy, heal_cluster:call(A, heal_registry, whereis_name, [busy])}])),
    receive {'DOWN', Monitor, process, Pid, Answers} when {Pid, Monitor} =:= Churn -> ?assertEqual([ok], Answers) end.

%% A connection has room for a moment, and what is made next goes after what it has refused before: the other node misses no entry. The
%% primary announces itself much later.
keeps_order(Nodes) ->
    #{primary := First} = heal_cluster:status(hd(Nodes)),
    {[Primary], [Other]} = lists:partition(fun(It) -> heal_cluster:node_of(It) =:= First end, Nodes),
    plan(Other, {hold, want}),
    Pid = pid_on(Primary),
    [begin
         plan(Primary, full),
         ok = heal_cluster:call(Primary, heal_registry, register, [{Round, 0}, Pid, #{}]),
         Edits = [{register, {Round, N}, Pid} || N <- lists:seq(1, 250)],
         [ok] = lists:usort(heal_cluster:call(Primary, heal_meets_tests, at_once_here, [Edits])),
         plan(Primary, none),
         heal_cluster:eventually(fun() -> heal_cluster:call(Other, heal_registry, whereis_name, [{Round, 250}]) =:= Pid end)
     end || Round <- lists:seq(1, 10)],
    ?assertEqual([], heal_cluster:call(Other, heal_faults, held, [])),
    ?assertEqual(2510, length(heal_cluster:one_part(Nodes))).

churn_here(Name, Count) ->
    Pid = spawn(heal_cluster, serve, [[]]),
    lists:usort([Answer || _ <- lists:seq(1, Count),
                           Answer <- [heal_registry:register(Name, Pid, #{}), heal_registry:unregister_name(Name)]]).

%% An edit that is answered with `not_made' never happens later.
not_made(A, B) ->
    [plan(It, {hold, offer}) || It <- [A, B]],
    heal_cluster:connect(A, B),
    [heal_cluster:eventually(fun() -> heal_cluster:call(It, heal_faults, held, []) =/= [] end) || It <- [A, B]],
    [?assertEqual({error, {timeout, not_made}}, soon(fun() -> register_on(It, db) end)) || It <- [A, B]],
    ?assertEqual({error, {timeout, not_made}}, soon(fun() -> heal_cluster:call(A, heal_registry, unregister_name, [db]) end)),
    [release(It) || It <- [A, B]],
    Pid = own(A, other),
    ?assertEqual([{other, Pid}], heal_cluster:alike(A, B)).

%% A leader that doesn't answer at all doesn't hold up the other node's edits for long.
silent_leader(A, B) ->
    plan(A, {lose, ask}),
    heal_cluster:connect(A, B),
    heal_cluster:eventually(fun() -> register_on(B, one) =/= {error, {timeout, not_made}} end),
    ?assertMatch([{one, _}], heal_cluster:table(B)),
    [heal_cluster:eventually(fun() -> is_map_key(silent, maps:get(problems, heal_cluster:status(It))) end) || It <- [A, B]],
    plan(A, none),
    ?assertMatch([{one, _}], heal_cluster:alike(A, B)),
    [?assertMatch(#{problems := Problems} when Problems =:= #{}, heal_cluster:status(It)) || It <- [A, B]].

%% The connection takes no entries: the other node gets a snapshot. It takes no requests: that node goes on by itself, and
%% heals.
full_connection(A, B) ->
    heal_cluster:connect(A, B),
    heal_cluster:joined(A, B),
    #{number := Number} = heal_cluster:status(A),
    plan(A, {full, edit}),
    One = own(A, one),
    ?assertEqual([{one, One}], heal_cluster:alike(A, B)),
    plan(A, none),
    plan(B, {full, request}),
    Two = own(B, two),
    plan(B, none),
    %% The other node has many messages to read.
    heal_cluster:eventually(fun() -> case heal_cluster:status(A) of #{number := Last} -> Last > Number; _ -> false end end),
    heal_cluster:eventually(fun() -> heal_cluster:table(A) =:= [{one, One}, {two, Two}] end),
    ?assertMatch([{one, One}, {two, Two}], heal_cluster:alike(A, B)).

%% A hidden node is a node.
hidden(A, B) ->
    OnB = own(B, one),
    ?assertEqual([{one, OnB}], heal_cluster:alike(A, B)),
    heal_cluster:split(A, B),
    heal_cluster:eventually(fun() -> heal_cluster:table(A) =:= [] end),
    heal_cluster:connect(A, B),
    ?assertEqual([{one, OnB}], heal_cluster:alike(A, B)).

%% Nobody connects the nodes: they connect by themselves, and again after a break.
reconnects(A, B) ->
    Pid = own(A, one),
    ?assertEqual([{one, Pid}], heal_cluster:alike(A, B)),
    #{number := Number} = heal_cluster:status(A),
    heal_cluster:call(A, erlang, disconnect_node, [heal_cluster:node_of(B)]),
    heal_cluster:eventually(fun() -> maps:get(number, heal_cluster:status(A)) > Number end),
    ?assertEqual([{one, Pid}], heal_cluster:alike(A, B)).
