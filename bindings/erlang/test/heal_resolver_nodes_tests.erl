%% heal_resolver on real nodes that hang, end, meet again, or have one number.
-module(heal_resolver_nodes_tests).

-include_lib("eunit/include/eunit.hrl").

-export([hold_global/0, resolve_each/1, halt_when_notified/0, keep_log/0, logged/1, sender_here/1, flood_here/2]).

%% Both versions of the interface have it.
-define(REGISTER, {heal_resolver, register_name}).
%% A bound for many names of a node that doesn't answer, in microseconds: its silence is waited for once.
-define(SOON, 12000000).

%% A node with a small number has the first registration: what its silence counts for decides most.
nodes_test_() ->
    Silent = [fun frozen/1, fun frozen_before_it_sent/1, fun killed/1],
    Two = [fun program_of_a_dead_node/1, fun started_late/1, fun meet_again/1, fun process_of_another_node/1, fun server_crash/1,
           fun unknown_message/1, fun full_connection/1],
    Three = [fun killed_while_global_resolves/1, fun third_node_knows/1],
    {inparallel, 4, [test([7, 7], fun one_number/1) | [test([2, 1], It) || It <- Silent]] ++
                    [test([1, 2], It) || It <- Two] ++ [test([3, 2, 1], It) || It <- Three]}.

%% Runs a test on nodes that are apart and have these numbers. Each runs the application. A node that hangs ends too.
test(Numbers, Test) ->
    {name, Name} = erlang:fun_info(Test, name),
    {setup,
        fun() ->
            Nodes = [heal_cluster:start(Letter) || Letter <- lists:sublist([a, b, c], length(Numbers))],
            Setting = maps:from_list(lists:zip([heal_cluster:node_of(It) || It <- Nodes], Numbers)),
            [start(It, Setting) || It <- Nodes],
            [{It, heal_cluster:call(It, os, getpid, [])} || It <- Nodes]
        end,
        fun(Nodes) -> [begin _ = os:cmd("kill -KILL " ++ Os), heal_cluster:stop(It) end || {It, Os} <- Nodes] end,
        fun(Nodes) -> {timeout, 240, {atom_to_list(Name), fun() -> Test([It || {It, _} <- Nodes]) end}} end}.

start(It, Numbers) ->
    _ = heal_cluster:call(It, application, load, [heal]),
    ok = heal_cluster:call(It, application, set_env, [heal, node_numbers, Numbers]),
    {ok, _} = heal_cluster:call(It, application, ensure_all_started, [heal]).

%% ---- What tests do with nodes ----

kill(It) ->
    "" = os:cmd("kill -KILL " ++ heal_cluster:call(It, os, getpid, [])).

own(It, Name, Options) ->
    heal_cluster:own(It, ?REGISTER, Name, Options).

%% Owners of as many names, each with this stamp.
own_each(It, Count, Stamp, Resolver) ->
    heal_cluster:own_each(It, ?REGISTER, names(Count), #{stamp => Stamp, resolver => Resolver}).

names(Count) ->
    [list_to_atom("n" ++ integer_to_list(N)) || N <- lists:seq(1, Count)].

upload(It) ->
    {ok, Id} = heal_cluster:call(It, heal_resolver, upload, [heal_resolver_tests:code("later_stamp")]),
    {program, Id}.

%% Keeps `global' from resolving names, so that a test can call the resolver itself.
without_global(It) ->
    heal_cluster:call(It, ?MODULE, hold_global, []).

hold_global() ->
    Self = self(),
    spawn(fun() ->
        true = global:set_lock({global, self()}, [node()]),
        Self ! held,
        receive never -> ok end
    end),
    receive held -> ok end.

known(It, Name, Pid) ->
    case heal_cluster:call(It, heal_facts, known, [Name, Pid]) of
        {ok, _, _} -> true;
        error -> false
    end.

knows(It, Name, Pid) ->
    heal_cluster:eventually(fun() -> known(It, Name, Pid) end).

where(It, Names) ->
    [heal_cluster:call(It, global, whereis_name, [Name]) || Name <- Names].

%% Resolves each clash on a node. Returns the owners that keep the names, and how long it took.
resolve_each(It, Clashes) ->
    heal_cluster:call(It, ?MODULE, resolve_each, [Clashes]).

resolve_each(Clashes) ->
    timer:tc(fun() -> [heal_resolver:resolve(Name, One, Other) || {Name, One, Other} <- Clashes] end).

mails(It, Pids) ->
    [heal_cluster:mail(It, Pid) || Pid <- Pids].

no_mail(Pids) ->
    [[] || _ <- Pids].

%% Waits until the owners have one notice each.
notified(It, Pids) ->
    Expected = [[{global_name_conflict, Name}] || Name <- names(length(Pids))],
    heal_cluster:eventually(fun() -> mails(It, Pids) =:= Expected end).

%% ---- Nodes that hang ----

%% A node that hangs takes no memory of the other one, which sends it all that it has once it goes on.
full_connection([A, B]) ->
    heal_cluster:connect(A, B),
    Pid = own(A, one, #{}),
    knows(B, one, Pid),
    Sender = heal_cluster:call(A, ?MODULE, sender_here, [heal_cluster:node_of(B)]),
    Waits = fun() -> element(2, heal_cluster:call(A, erlang, process_info, [Sender, message_queue_len])) end,
    heal_cluster:call(B, heal_facts, drop_node, [heal_cluster:node_of(A)]),
    ?assertNot(known(B, one, Pid)),
    Frozen = heal_cluster:freeze(B),
    heal_cluster:call(A, ?MODULE, flood_here, [Sender, 40000]),
    heal_cluster:eventually(fun() -> Waits() =< 10000 end),
    heal_cluster:thaw(Frozen),
    knows(B, one, Pid).

sender_here(Node) ->
    #{Node := {Sender, _}} = element(3, sys:get_state(heal_resolver)),
    Sender.

%% Messages that a server of this version ignores, 4 KB each.
flood_here(Sender, Count) ->
    [Sender ! {send, {of_a_later_version, N, <<0:32768>>}} || N <- lists:seq(1, Count)],
    ok.

%% A node hangs after it sent its registrations: the other one decides without it.
frozen([A, B]) ->
    Later = upload(A),
    Later = upload(B),
    OnA = own_each(A, 20, 9, Later),
    OnB = own_each(B, 20, 5, Later),
    [without_global(It) || It <- [A, B]],
    heal_cluster:connect(A, B),
    knows(A, n20, lists:last(OnB)),
    Frozen = heal_cluster:freeze(B),
    {Time, Kept} = resolve_each(A, lists:zip3(names(20), OnB, OnA)),
    heal_cluster:thaw(Frozen),
    ?assertEqual(OnA, Kept),
    ?assert(Time < 2000000),
    ?assertEqual(no_mail(OnA), mails(A, OnA)),
    notified(B, OnB).

%% A node hangs before it sent its registrations: the known owners keep their names, nobody is killed, and the node's silence
%% is waited for once.
frozen_before_it_sent([A, B]) ->
    OnA = own_each(A, 100, 9, exit),
    OnB = own_each(B, 100, 5, exit),
    [without_global(It) || It <- [A, B]],
    heal_cluster:connect(A, B),
    knows(A, n100, lists:last(OnB)),
    Frozen = heal_cluster:freeze(B),
    heal_cluster:call(A, heal_facts, drop_node, [heal_cluster:node_of(B)]),
    {Time, Kept} = resolve_each(A, lists:zip3(names(100), OnB, OnA)),
    heal_cluster:thaw(Frozen),
    ?assertEqual(OnA, Kept),
    ?assert(Time < ?SOON),
    ?assertEqual(no_mail(OnA), mails(A, OnA)),
    notified(B, OnB).

%% ---- Nodes that end ----

killed([A, B]) ->
    OnA = own_each(A, 20, 5, exit),
    OnB = own_each(B, 20, 9, exit),
    [without_global(It) || It <- [A, B]],
    heal_cluster:connect(A, B),
    knows(A, n20, lists:last(OnB)),
    kill(B),
    heal_cluster:eventually(fun() -> heal_cluster:call(A, erlang, nodes, []) =:= [] end),
    {_, Kept} = resolve_each(A, lists:zip3(names(20), OnB, OnA)),
    ?assertEqual(OnA, Kept),
    ?assertEqual(no_mail(OnA), mails(A, OnA)).

%% A node ends while `global' resolves: a name that has an owner elsewhere stays.
killed_while_global_resolves([A, B, C]) ->
    Later = upload(A),
    Later = upload(C),
    heal_cluster:connect(B, C),
    OnA = own_each(A, 200, 9, Later),
    _OnC = own_each(C, 200, 5, Later),
    Halts = heal_cluster:call(C, erlang, spawn, [?MODULE, halt_when_notified, []]),
    yes = heal_cluster:call(C, heal_resolver, register_name, [halts, Halts, #{stamp => 5, resolver => Later}]),
    _ = own(A, halts, #{stamp => 9, resolver => Later}),
    heal_cluster:connect(A, B),
    _ = heal_cluster:call(A, net_kernel, connect_node, [heal_cluster:node_of(C)]),
    heal_cluster:eventually(fun() -> [heal_cluster:call(It, erlang, nodes, []) || It <- [A, B]] =:=
                                     [[heal_cluster:node_of(It)] || It <- [B, A]] end),
    %% `global' of OTP 25 may leave A and B unlike when C ends, with every resolver, until they are connected again.
    heal_cluster:split(A, B),
    heal_cluster:connect(A, B),
    heal_cluster:eventually(fun() -> [where(It, names(200)) || It <- [A, B]] =:= [OnA, OnA] end),
    ?assertEqual(no_mail(OnA), mails(A, OnA)).

halt_when_notified() ->
    receive {global_name_conflict, _} -> erlang:halt(0, [{flush, false}]) end.

%% A uploads the program and ends: B has it.
program_of_a_dead_node([A, B]) ->
    heal_cluster:connect(A, B),
    Later = {program, Id} = upload(A),
    heal_cluster:eventually(fun() -> heal_cluster:call(B, heal_facts, code, [Id]) =/= error end),
    kill(A),
    heal_cluster:eventually(fun() -> heal_cluster:call(B, erlang, nodes, []) =:= [] end),
    Pid = own(B, db, #{resolver => Later}),
    ?assertEqual([Pid], where(B, [db])).

%% C knows the registrations of B, which hangs, and A queries C.
third_node_knows([A, B, C]) ->
    Later = upload(A),
    heal_cluster:connect(B, C),
    Later = upload(B),
    OnA = own_each(A, 20, 5, Later),
    OnB = own_each(B, 20, 9, Later),
    knows(C, n20, lists:last(OnB)),
    [without_global(It) || It <- [A, B, C]],
    Frozen = heal_cluster:freeze(B),
    heal_cluster:connect(A, C),
    {Time, Kept} = resolve_each(A, lists:zip3(names(20), OnB, OnA)),
    heal_cluster:thaw(Frozen),
    ?assertEqual(OnB, Kept),
    ?assert(Time < ?SOON),
    ?assertEqual(no_mail(OnB), mails(B, OnB)),
    notified(A, OnA).

%% ---- Nodes that meet ----

%% A server that starts after the nodes connected receives all, and sends all.
started_late([A, B]) ->
    ok = heal_cluster:call(B, application, stop, [heal]),
    OnA = own(A, on_a, #{}),
    heal_cluster:connect(A, B),
    heal_cluster:eventually(fun() -> where(B, [on_a]) =:= [OnA] end),
    {ok, _} = heal_cluster:call(B, application, ensure_all_started, [heal]),
    OnB = own(B, on_b, #{}),
    knows(B, on_a, OnA),
    knows(A, on_b, OnB).

%% After a split a registration has other options, and another one is gone.
meet_again([A, B]) ->
    heal_cluster:connect(A, B),
    [One, Two] = [own(B, Name, #{weight => 1}) || Name <- [one, two]],
    [knows(A, Name, Pid) || {Name, Pid} <- [{one, One}, {two, Two}]],
    heal_cluster:split(A, B),
    %% What A knows outlives the connection.
    ?assertEqual([true, true], [known(A, Name, Pid) || {Name, Pid} <- [{one, One}, {two, Two}]]),
    heal_cluster:eventually(fun() -> heal_cluster:call(A, heal_facts, nodes_down, []) =/= [] end),
    [ok = heal_cluster:call(B, heal_resolver, unregister_name, [Name]) || Name <- [one, two]],
    yes = heal_cluster:call(B, heal_resolver, register_name, [one, One, #{weight => 2}]),
    %% Until B sends what it has, A's table is out of date, and A queries B.
    ok = heal_cluster:call(B, sys, suspend, [heal_resolver]),
    heal_cluster:connect(A, B),
    Find = fun(Name, Pid) -> heal_cluster:call(A, heal_facts, find, [Name, Pid]) end,
    ?assertMatch({ok, #{weight := 1}, _}, heal_cluster:call(A, heal_facts, known, [one, One])),
    ?assertMatch({ok, #{weight := 2}, _}, Find(one, One)),
    ?assertEqual(error, Find(two, Two)),
    ok = heal_cluster:call(B, sys, resume, [heal_resolver]),
    heal_cluster:eventually(fun() -> not known(A, two, Two) end),
    heal_cluster:eventually(fun() -> known(A, one, One) end),
    ?assertMatch({ok, #{weight := 2}, #{size := 1}}, heal_cluster:call(A, heal_facts, known, [one, One])),
    ok = heal_cluster:call(B, heal_resolver, unregister_name, [one]),
    heal_cluster:eventually(fun() -> not known(A, one, One) end).

%% The registration is with the node of the process.
process_of_another_node([A, B]) ->
    heal_cluster:connect(A, B),
    Later = upload(A),
    Pid = heal_cluster:call(B, erlang, spawn, [heal_cluster, serve, [[]]]),
    ?assertEqual(ok, heal_cluster:call(A, heal_resolver, register, [db, Pid, #{resolver => Later}])),
    ?assert(known(B, db, Pid)),
    knows(A, db, Pid),
    {ok, #{owner := {2, _}}, #{size := 1}} = heal_cluster:call(A, heal_facts, known, [db, Pid]),
    ok = heal_cluster:call(B, application, stop, [heal]),
    ?assertEqual({error, {no_answer, heal_cluster:node_of(B)}}, heal_cluster:call(A, heal_resolver, register, [other, Pid, #{}])).

%% A server that crashes sends and receives again. Until it has received, what it knows of other nodes is out of date.
server_crash([A, B]) ->
    heal_cluster:connect(A, B),
    [Before, Other] = [own(It, Name, #{}) || {It, Name} <- [{A, before}, {B, other}]],
    knows(B, before, Before),
    knows(A, other, Other),
    Down = fun() -> [Node || {Node, _} <- heal_cluster:call(A, heal_facts, nodes_down, [])] end,
    ?assertEqual([], Down()),
    ok = heal_cluster:call(B, sys, suspend, [heal_resolver]),
    true = heal_cluster:call(A, erlang, exit, [heal_cluster:call(A, erlang, whereis, [heal_resolver]), kill]),
    heal_cluster:eventually(fun() -> Down() =:= [heal_cluster:node_of(B)] end),
    ok = heal_cluster:call(B, sys, resume, [heal_resolver]),
    heal_cluster:eventually(fun() -> Down() =:= [] end),
    OnA = own(A, on_a, #{}),
    OnB = own(B, on_b, #{}),
    knows(B, on_a, OnA),
    knows(A, on_b, OnB),
    ?assert(known(A, before, Before)),
    heal_cluster:eventually(fun() -> known(B, before, Before) end).

%% Another version's server may send what this one doesn't know.
unknown_message([A, B]) ->
    heal_cluster:connect(A, B),
    Server = heal_cluster:call(A, erlang, whereis, [heal_resolver]),
    Message = {heal_resolver, heal_cluster:node_of(B), unknown},
    Message = heal_cluster:call(B, erlang, send, [{heal_resolver, heal_cluster:node_of(A)}, Message]),
    Pid = own(B, db, #{}),
    knows(A, db, Pid),
    ?assertEqual(Server, heal_cluster:call(A, erlang, whereis, [heal_resolver])).

%% Two nodes with one number: each logs it once, and nobody is notified or killed by mistake.
one_number([A, B]) ->
    [heal_cluster:call(It, ?MODULE, keep_log, []) || It <- [A, B]],
    OnA = own_each(A, 16, 1, notify),
    OnB = own_each(B, 16, 1, notify),
    heal_cluster:connect(A, B),
    heal_cluster:eventually(fun() -> where(A, names(16)) =:= where(B, names(16)) andalso
                                     length([1 || [_] <- mails(A, OnA) ++ mails(B, OnB)]) =:= 16 end),
    Kept = where(A, names(16)),
    Expected = fun(Name, Pid) -> [{global_name_conflict, Name} || not lists:member(Pid, Kept)] end,
    [?assertEqual(Expected(Name, Pid), heal_cluster:mail(It, Pid))
     || {It, Pids} <- [{A, OnA}, {B, OnB}], {Name, Pid} <- lists:zip(names(16), Pids)],
    heal_cluster:split(A, B),
    heal_cluster:connect(A, B),
    Logged = fun(It) -> heal_cluster:call(It, ?MODULE, logged, ["both have the node number 7"]) end,
    heal_cluster:eventually(fun() -> [length(Logged(It)) || It <- [A, B]] =:= [1, 1] end).

%% Keeps what a node logs.
keep_log() ->
    Pid = spawn(heal_cluster, serve, [[]]),
    register(?MODULE, Pid),
    heal_resolver_tests:catch_log(error, Pid).

logged(Words) ->
    [Text || {logged, Text} <- heal_cluster:mail_here(whereis(?MODULE)), string:find(Text, Words) =/= nomatch].
