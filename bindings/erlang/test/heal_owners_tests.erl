%% Whose a name is in heal_registry: the node of its process, the winner that lives, and the answer to a registration.
-module(heal_owners_tests).

-include_lib("eunit/include/eunit.hrl").

-define(REGISTER, {heal_registry, register}).
-define(LATER, "79126000000000007911380000000000b700000002000000ad21010000000000b7000000010000009500000000000000").

own(It, Name, Options) ->
    heal_cluster:own(It, ?REGISTER, Name, Options).

own_each(It, Names, Options) ->
    heal_cluster:own_each(It, ?REGISTER, Names, Options).

register_on(It, Name, Pid, Options) ->
    heal_cluster:call(It, heal_registry, register, [Name, Pid, Options]).

pid_on(Of) ->
    heal_cluster:call(Of, erlang, spawn, [heal_cluster, serve, [[]]]).

names(Prefix, Count) ->
    [iolist_to_binary([Prefix, integer_to_list(N)]) || N <- lists:seq(1, Count)].

plan(It, Plan) ->
    ok = heal_cluster:call(It, heal_faults, plan, [Plan]).

release(It) ->
    plan(It, none),
    heal_cluster:call(It, heal_faults, release, []).

holds(It) ->
    heal_cluster:eventually(fun() -> heal_cluster:call(It, heal_faults, held, []) =/= [] end).

alive(It, Pids) ->
    [Pid || Pid <- Pids, heal_cluster:call(It, erlang, is_process_alive, [Pid])].

later(It) ->
    {ok, Id} = heal_cluster:call(It, heal_registry, upload, [binary:decode_hex(<<?LATER>>)]),
    {program, Id}.

%% ---- Whose a process is ----

nodes_test_() ->
    {inparallel, 3, [heal_cluster:pair(#{}, fun other_nodes_process/2), {timeout, 240, fun third_node/0},
                     {timeout, 120, fun other_setting/0}, {timeout, 120, fun both_first/0}, {timeout, 120, fun other_version/0}]}.

%% A process that is registered through the other node belongs to its own: it has its name while the nodes are apart.
other_nodes_process(A, B) ->
    [OnA, OnB] = [pid_on(It) || It <- [A, B]],
    ?assertEqual(ok, register_on(B, one, OnA, #{})),
    ?assertEqual(ok, register_on(A, two, OnB, #{weight => 3})),
    ?assertMatch({error, {30, _}}, register_on(B, one, OnA, #{})),
    ?assertMatch({error, {41, _}}, register_on(B, three, OnA, #{resolver => {program, <<0:256>>}})),
    ?assertEqual([{one, OnA}, {two, OnB}], heal_cluster:alike(A, B)),
    heal_cluster:split(A, B),
    heal_cluster:apart(A, B),
    heal_cluster:eventually(fun() -> {heal_cluster:table(A), heal_cluster:table(B)} =:= {[{one, OnA}], [{two, OnB}]} end),
    ?assertEqual({error, {noconnection, not_made}}, register_on(B, three, OnA, #{})),
    ?assertEqual({error, {noconnection, not_made}}, register_on(A, three, OnB, #{})),
    heal_cluster:connect(A, B),
    ?assertEqual([{one, OnA}, {two, OnB}], heal_cluster:alike(A, B)),
    heal_cluster:kill(A, OnA),
    heal_cluster:kill(B, OnB),
    heal_cluster:eventually(fun() -> {heal_cluster:table(A), heal_cluster:table(B)} =:= {[], []} end).

%% A process of a third node belongs to the node that registered it, which notifies and watches it.
third_node() ->
    Args = ["-connect_all", "false", "-kernel", "prevent_overlapping_partitions", "false"],
    All = [A, B, C] = [heal_cluster:start(Letter, Args) || Letter <- [a, b, c]],
    [heal_cluster:start_registry(It, [A, B], #{}) || It <- [A, B]],
    [heal_cluster:connect(One, Other) || {One, Other} <- [{A, C}, {B, C}]],
    [ThroughA, ThroughB, Lives, Both, Every] = [pid_on(C) || _ <- [1, 2, 3, 4, 5]],
    ok = register_on(A, db, ThroughA, #{resolver => notify}),
    ok = register_on(B, db, ThroughB, #{resolver => notify}),
    ok = register_on(B, lives, Lives, #{}),
    %% Both nodes register one process: it isn't its own rival.
    [ok = register_on(It, Name, Pid, #{resolver => Resolver})
     || It <- [A, B], {Name, Pid, Resolver} <- [{both, Both, exit}, {all, Every, notify_all}]],
    heal_cluster:connect(A, B),
    heal_cluster:alike(A, B),
    Mails = fun() -> lists:sort([heal_cluster:mail(C, Pid) || Pid <- [ThroughA, ThroughB]]) end,
    heal_cluster:eventually(fun() -> Mails() =/= [[], []] end),
    ?assertEqual([[], [{global_name_conflict, db}]], Mails()),
    Winner = heal_cluster:call(A, heal_registry, whereis_name, [db]),
    ?assertEqual([], heal_cluster:mail(C, Winner)),
    heal_cluster:eventually(fun() -> lists:sublist(heal_cluster:table(B), 2) =:= [{all, Every}, {both, Both}] end),
    ?assertEqual([{all, Every}, {both, Both}], lists:sublist(heal_cluster:alike(A, B), 2)),
    ?assertEqual({[], []}, {heal_cluster:mail(C, Every), heal_cluster:mail(C, Both)}),
    [heal_cluster:kill(C, Pid) || Pid <- [Every, Both]],
    heal_cluster:kill(C, Winner),
    heal_cluster:eventually(fun() -> heal_cluster:table(A) =:= [{lives, Lives}] end),
    heal_cluster:split(A, B),
    heal_cluster:eventually(fun() -> {heal_cluster:table(A), heal_cluster:table(B)} =:= {[], [{lives, Lives}]} end),
    [heal_cluster:stop(It) || It <- All].

%% Nodes whose settings differ stay apart, each with its names and the reason.
other_setting() ->
    [A, B] = Nodes = [heal_cluster:start(Letter) || Letter <- [a, b]],
    heal_cluster:start_registry(A, [A, B], #{exchange_timeout => 200}),
    heal_cluster:start_registry(B, [B], #{}),
    stay_apart(A, B, nodes),
    [heal_cluster:stop(It) || It <- Nodes].

%% Both nodes are the first one of their settings.
both_first() ->
    [A, B, C] = Nodes = [heal_cluster:start(Letter) || Letter <- [a, b, c]],
    heal_cluster:start_registry(A, [A, B], #{exchange_timeout => 200}),
    heal_cluster:start_registry(B, [B, C], #{exchange_timeout => 200}),
    stay_apart(A, B, nodes),
    [heal_cluster:stop(It) || It <- Nodes].

stay_apart(A, B, Problem) ->
    [heal_logs:collect(It) || It <- [A, B]],
    [OnA, OnB] = [own(It, db, #{resolver => exit}) || It <- [A, B]],
    heal_cluster:connect(A, B),
    [heal_cluster:eventually(fun() -> is_map_key(Problem, maps:get(problems, heal_cluster:status(It))) end) || It <- [A, B]],
    ?assertEqual({error, apart}, heal_cluster:call(A, heal_registry, sync, [])),
    %% A registry that starts again meets the other one again.
    [begin
         heal_cluster:kill_registry(A),
         heal_cluster:start_registry(A, [A, B], #{exchange_timeout => 200}),
         heal_cluster:eventually(fun() -> heal_cluster:call(A, heal_registry, sync, []) =:= {error, apart} end)
     end || _ <- [1, 2]],
    ?assertEqual({[{db, OnA}], [{db, OnB}]}, {heal_cluster:table(A), heal_cluster:table(B)}),
    [?assertMatch([_], [Text || Text <- heal_logs:texts(It), string:find(Text, "stays apart") =/= nomatch]) || It <- [A, B]].

%% A node with other messages stays apart. The names stay, and both heal when it has these messages too.
other_version() ->
    [A, B] = Nodes = [heal_cluster:start(Letter) || Letter <- [a, b]],
    heal_cluster:start_registry(A, Nodes, #{}),
    heal_logs:collect(A),
    heal_cluster:connect(A, B),
    OnA = own(A, one, #{}),
    Send = fun(Message) -> heal_cluster:call(B, erlang, send, [{heal_registry, heal_cluster:node_of(A)}, Message]) end,
    Node = heal_cluster:node_of(B),
    Messages = [{heal_registry, Node, started}, {heal_registry, Node, {request, 1, 2, x}}, {heal_registry, 3, Node, x}],
    [Send(Message) || Message <- Messages ++ Messages],
    heal_cluster:eventually(fun() -> is_map_key(version, maps:get(problems, heal_cluster:status(A))) end),
    OnB = own(A, two, #{}),
    ?assertEqual([{one, OnA}, {two, OnB}], heal_cluster:table(A)),
    ?assertMatch([_], [Text || Text <- heal_logs:texts(A), string:find(Text, "have version 1") =/= nomatch]),
    heal_cluster:start_registry(B, Nodes, #{}),
    ?assertEqual([{one, OnA}, {two, OnB}], heal_cluster:alike(A, B)),
    ?assertMatch(#{problems := Problems} when Problems =:= #{}, heal_cluster:status(A)),
    [heal_cluster:stop(It) || It <- Nodes].

%% ---- Winners that end ----

winners_test_() ->
    {inparallel, 3, [heal_cluster:halves(#{exchange_timeout => 20000}, Test)
     || Test <- [fun withdrawn_winner/2, fun withdrawn_rival/2, fun late_winner_of_leader/2, fun late_winner_of_other/2,
                 fun taken_meanwhile/2, fun link_lost_after_merge/2, fun many_names_of_one/2]]}.

%% A winner that ends before its half closes its list doesn't take its rival along, nor the name.
withdrawn_winner(A, B) ->
    Names = names("x", 20),
    [OnA, OnB] = [own_each(It, Names, #{stamp => Stamp, resolver => later(It)}) || {It, Stamp} <- [{A, 5}, {B, 9}]],
    [ExitA, ExitB] = [own_each(It, names("y", 20), #{resolver => exit}) || It <- [A, B]],
    plan(B, {hold, offer}),
    heal_cluster:connect(A, B),
    holds(B),
    [heal_cluster:kill(B, Pid) || Pid <- OnB ++ ExitB],
    release(B),
    Expected = lists:sort(lists:zip(Names ++ names("y", 20), OnA ++ ExitA)),
    heal_cluster:eventually(fun() -> [heal_cluster:table(It) || It <- [A, B]] =:= [Expected, Expected] end),
    ?assertEqual([[]], lists:usort([heal_cluster:mail(A, Pid) || Pid <- OnA])),
    ?assertEqual(ExitA, alive(A, ExitA)),
    OfA = heal_cluster:node_of(A),
    Registrations = [heal_cluster:call(It, heal_registry, info, [<<"x1">>]) || It <- [A, B]],
    ?assertMatch([#{stamp := 5, home := OfA}], lists:usort(Registrations)).

%% Where neither would keep the name, the one that lives has it.
withdrawn_rival(A, B) ->
    [OnA, OnB] = [own(It, db, #{resolver => notify_all}) || It <- [A, B]],
    plan(A, {hold, offer}),
    heal_cluster:connect(A, B),
    holds(A),
    heal_cluster:kill(A, OnA),
    release(A),
    heal_cluster:eventually(fun() -> [heal_cluster:table(It) || It <- [A, B]] =:= [[{db, OnB}], [{db, OnB}]] end),
    ?assertEqual([], heal_cluster:mail(B, OnB)).

%% Winners of the leader end after it has closed its list. The other node kills nobody for them.
late_winner_of_leader(A, B) ->
    late(A, A, B).

%% The other node has finished, and its winners end before the leader finishes.
late_winner_of_other(A, B) ->
    late(B, B, A).

late(Holds, Ends, Lives) ->
    Names = names("x", 20),
    [Dead, Alive] = [own_each(It, Names, #{resolver => exit}) || It <- [Ends, Lives]],
    plan(Holds, {hold_from, list}),
    heal_cluster:connect(Ends, Lives),
    holds(Holds),
    [heal_cluster:kill(Ends, Pid) || Pid <- Dead],
    %% Its registry knows, so it sends nothing else while the messages are released.
    heal_cluster:eventually(fun() -> not lists:keymember(undefined, 2, heal_cluster:table(Ends)) end),
    release(Holds),
    Expected = lists:sort(lists:zip(Names, Alive)),
    heal_cluster:eventually(fun() -> [heal_cluster:table(It) || It <- [Ends, Lives]] =:= [Expected, Expected] end),
    ?assertEqual(Expected, heal_cluster:alike(Ends, Lives)),
    ?assertEqual(Alive, alive(Lives, Alive)).

%% Another process takes the name of a winner that has ended: the loser is notified after all.
taken_meanwhile(A, B) ->
    [OnA, OnB] = [own(It, db, #{stamp => Stamp, resolver => later(It)}) || {It, Stamp} <- [{A, 9}, {B, 5}]],
    plan(A, {hold, finished}),
    heal_cluster:connect(A, B),
    holds(A),
    heal_cluster:kill(A, OnA),
    New = own(A, db, #{}),
    ?assertEqual([], heal_cluster:mail(B, OnB)),
    release(A),
    ?assertEqual([{db, New}], heal_cluster:alike(A, B)),
    heal_cluster:eventually(fun() -> heal_cluster:mail(B, OnB) =:= [{global_name_conflict, db}] end).

%% The nodes part after one of them has merged and before the other has: each has its own names again.
link_lost_after_merge(A, B) ->
    Names = names("x", 20),
    [OnA, OnB] = [own_each(It, Names, #{resolver => exit}) || It <- [A, B]],
    AllB = own(B, all, #{resolver => notify_all}),
    AllA = own(A, all, #{resolver => notify_all}),
    plan(B, {lose, list}),
    heal_cluster:connect(A, B),
    heal_cluster:eventually(fun() -> heal_cluster:link_of(B) =:= joined end),
    heal_cluster:split(A, B),
    heal_cluster:apart(A, B),
    plan(B, none),
    Half = fun(All, Pids) -> [{all, All} | lists:zip(Names, Pids)] end,
    heal_cluster:eventually(fun() -> lists:sort(heal_cluster:table(B)) =:= lists:sort(Half(AllB, OnB)) end),
    ?assertEqual(lists:sort(Half(AllA, OnA)), lists:sort(heal_cluster:table(A))),
    ?assertEqual({OnA, OnB}, {alive(A, OnA), alive(B, OnB)}),
    ?assertEqual({[], []}, {heal_cluster:mail(A, AllA), heal_cluster:mail(B, AllB)}),
    heal_cluster:connect(A, B),
    ?assertEqual(lists:sort(Names), [Name || {Name, _} <- heal_cluster:alike(A, B)]),
    heal_cluster:eventually(fun() -> length(alive(A, OnA)) + length(alive(B, OnB)) =:= 20 end).

%% A process of many names ends right before the nodes meet: nobody loses a name to it, not even for a while.
many_names_of_one(A, B) ->
    Names = names("x", 1000),
    [OnA, OnB, Subscriber] = [pid_on(It) || It <- [A, B, A]],
    [ok = register_on(It, Name, Pid, #{resolver => notify}) || {It, Pid} <- [{A, OnA}, {B, OnB}], Name <- Names],
    ok = heal_cluster:call(A, heal_registry, subscribe, [Subscriber]),
    ok = heal_cluster:call(B, sys, suspend, [heal_registry]),
    heal_cluster:kill(B, OnB),
    heal_cluster:connect(A, B),
    ok = heal_cluster:call(B, sys, resume, [heal_registry]),
    ?assertEqual(lists:sort([{Name, OnA} || Name <- Names]), heal_cluster:alike(A, B)),
    Events = [Event || {heal_registry, Event} <- heal_cluster:mail(A, Subscriber)],
    ?assertMatch([_ | _], [Facts || {healed, Facts} <- Events]),
    ?assertEqual([], [Event || Event <- Events, element(1, Event) =:= unregistered orelse element(1, Event) =:= conflict]),
    ?assertEqual([], heal_cluster:mail(A, OnA)).

%% ---- Answers, and halves that don't fit ----

fits_test_() ->
    %% A node that has missed an entry learns so from the next announcement: the first pulse is to come later than the entries of the test.
    {inparallel, 3, [heal_cluster:halves(#{exchange_timeout => Timeout}, Test)
     || {Timeout, Test} <- [{200, fun programs/2}, {1000, fun too_many_names/2}, {60000, fun missed_entry/2}]]}.

alarms(It) ->
    [Alarm || Alarm = {{heal_registry, _}, _} <- heal_cluster:call(It, alarm_handler, get_alarms, [])].

watched(It) ->
    {ok, _} = heal_cluster:call(It, application, ensure_all_started, [sasl]),
    heal_logs:collect(It).

logged(It, Words) ->
    length([Text || Text <- heal_logs:texts(It), string:find(Text, Words) =/= nomatch]).

program(Number) ->
    <<16#b7, 0, 0, 0, Number:32/little, 16#95, 0:56>>.

%% The other node misses an entry. It has the name soon, and entries that follow change nothing before.
missed_entry(A, B) ->
    heal_cluster:connect(A, B),
    heal_cluster:joined(A, B),
    #{view := {View, _}} = heal_cluster:status(A),
    plan(A, {lose, edit}),
    [One, Two] = [own(A, Name, #{}) || Name <- [one, two]],
    ?assertEqual([], heal_cluster:table(B)),
    plan(A, none),
    Three = own(B, three, #{}),
    ?assertEqual([{one, One}, {three, Three}, {two, Two}], heal_cluster:alike(A, B)),
    ?assertMatch(#{view := {View, _}}, heal_cluster:status(A)).

%% The halves have more programs than a store holds. One of the other node's is left out, and that node shows so.
programs(A, B) ->
    [watched(It) || It <- [A, B]],
    [{ok, _} = heal_cluster:call(B, heal_registry, upload, [program(N)]) || N <- lists:seq(1, 256)],
    {ok, Id} = heal_cluster:call(A, heal_registry, upload, [program(1000)]),
    heal_cluster:connect(A, B),
    heal_cluster:joined(A, B),
    heal_cluster:eventually(fun() -> is_map_key(43, maps:get(problems, heal_cluster:status(B))) end),
    ?assertMatch({error, {43, _}}, heal_cluster:call(A, heal_registry, upload, [program(1001)])),
    ?assertMatch({error, {41, _}}, register_on(A, x, pid_on(A), #{resolver => {program, <<0:256>>}})),
    Pids = [own(It, Name, #{resolver => {program, Id}}) || {It, Name} <- [{A, one}, {B, two}]],
    ?assertEqual(lists:zip([one, two], Pids), heal_cluster:alike(A, B)),
    heal_cluster:eventually(fun() -> length(alarms(B)) =:= 1 end),
    ?assertMatch([{{heal_registry, 43}, _}], alarms(B)),
    ?assertEqual(1, logged(B, "problem 43")).

%% Halves that have too many names together show so once, after several attempts, until they heal.
too_many_names(A, B) ->
    [watched(It) || It <- [A, B]],
    [own_each(It, names(Prefix, 2100), #{}) || {It, Prefix} <- [{A, "a"}, {B, "b"}]],
    heal_cluster:connect(A, B),
    heal_cluster:eventually(fun() -> maps:get(number, heal_cluster:status(A)) >= 4 end),
    [begin
         ?assertMatch(#{problems := #{37 := _}}, heal_cluster:status(It)),
         ?assertMatch([{{heal_registry, 37}, _}], alarms(It)),
         ?assertEqual(1, logged(It, "(problem 37)"))
     end || It <- [A, B]],
    [ok = heal_cluster:call(B, heal_registry, unregister_name, [Name]) || Name <- names("b", 200)],
    heal_cluster:joined(A, B),
    [begin
         ?assertMatch(#{problems := Problems} when Problems =:= #{}, heal_cluster:status(It)),
         heal_cluster:eventually(fun() -> alarms(It) =:= [] end),
         ?assertEqual(1, logged(It, "problem 37 is over"))
     end || It <- [A, B]].
