%% heal_registry when its process ends and starts again, and when a node starts next to one that runs.
-module(heal_restart_tests).

-include_lib("eunit/include/eunit.hrl").

-export([start_and_register/3, work/2, stop/1, lack_here/1]).

-define(REGISTER, {heal_registry, register}).

names(Prefix, Count) ->
    [iolist_to_binary([Prefix, integer_to_list(N)]) || N <- lists:seq(1, Count)].

own(It, Name, Options) ->
    heal_cluster:own(It, ?REGISTER, Name, Options).

own_each(It, Names, Options) ->
    heal_cluster:own_each(It, ?REGISTER, Names, Options).

restart(It, Nodes) ->
    restart(It, Nodes, #{}).

restart(It, Nodes, Options) ->
    heal_cluster:kill_registry(It),
    heal_cluster:start_registry(It, Nodes, Options).

alive(It, Pids) ->
    [Pid || Pid <- Pids, heal_cluster:call(It, erlang, is_process_alive, [Pid])].

restarts_test_() ->
    {inparallel, 3, [
        [heal_cluster:cluster(Count, #{exchange_timeout => 1000, edit_timeout => 2000}, fun nodes_restart/1)
         || Count <- heal_cluster:sizes(), Count > 2],
        heal_cluster:pair(#{}, fun alone/2),
        heal_cluster:pair(#{}, fun readers/2),
        heal_cluster:pair(#{}, fun dead_owner/2),
        heal_cluster:pair(#{}, fun successors/2),
        {timeout, 120, fun other_nodes/0},
        heal_cluster:pair(#{}, fun half_written/2),
        heal_cluster:pair(#{}, fun restoring/2),
        heal_cluster:pair(#{}, fun killed_while_writing/2),
        heal_cluster:halves(#{exchange_timeout => 1000}, fun during_exchange/2),
        heal_cluster:halves(#{exchange_timeout => 20000}, fun losers/2),
        heal_cluster:halves(#{exchange_timeout => 20000}, fun failed_leader/2),
        heal_cluster:halves(#{exchange_timeout => 500}, fun failed_for_good/2),
        applications(fun under_load/2),
        applications(fun stopped_after_failure/2),
        applications(fun keeper_ends/2)
    ]}.

%% ---- The table outlives the registry ----

%% A registry of a node that is alone has its names, its programs and its monitors again.
alone(A, B) ->
    heal_cluster:split(A, B),
    heal_cluster:apart(A, B),
    {ok, Id} = heal_cluster:call(A, heal_registry, upload, [<<16#b7, 0, 0, 0, 1:32/little, 16#95, 0:56>>]),
    [One, Two, Three] = [own(A, Name, #{resolver => {program, Id}}) || Name <- [one, two, three]],
    #{number := Number} = heal_cluster:status(A),
    heal_cluster:kill_registry(A),
    %% Processes end while no registry watches them.
    heal_cluster:kill(A, One),
    heal_cluster:start_registry(A, [A, B], #{}),
    ?assertEqual(lists:sort([{two, Two}, {three, Three}]), heal_cluster:table(A)),
    ?assertMatch(#{number := Number, names := 2}, heal_cluster:status(A)),
    heal_cluster:kill(A, Two),
    heal_cluster:eventually(fun() -> heal_cluster:table(A) =:= [{three, Three}] end),
    Four = own(A, one, #{resolver => {program, Id}}),
    restart(A, [A, B]),
    heal_cluster:connect(A, B),
    ?assertEqual([{one, Four}, {three, Three}], heal_cluster:alike(A, B)).

%% While the registry is down its table is read.
readers(A, B) ->
    Pid = own(A, one, #{}),
    heal_cluster:alike(A, B),
    [heal_cluster:kill_registry(It) || It <- [A, B]],
    [?assertEqual([{one, Pid}], heal_cluster:table(It)) || It <- [A, B]],
    ?assertExit({not_running, heal_registry}, heal_cluster:call(A, heal_registry, register, [two, Pid, #{}])),
    %% A call waits a moment for the restart.
    Self = self(),
    spawn_link(fun() -> Self ! {two, own(A, two, #{})} end),
    [heal_cluster:start_registry(It, [A, B], #{}) || It <- [A, B]],
    receive {two, Two} -> ?assertEqual([{one, Pid}, {two, Two}], heal_cluster:alike(A, B)) end.

%% Owners that end while their registry is down don't win against the living, with any seed.
dead_owner(A, B) ->
    Names = names("x", 30),
    heal_cluster:split(A, B),
    heal_cluster:apart(A, B),
    Dead = own_each(A, Names, #{resolver => exit}),
    heal_cluster:kill_registry(A),
    [heal_cluster:kill(A, Pid) || Pid <- Dead],
    Alive = own_each(B, Names, #{resolver => exit}),
    heal_cluster:start_registry(A, [A, B], #{}),
    heal_cluster:connect(A, B),
    ?assertEqual(lists:sort(lists:zip(Names, Alive)), heal_cluster:alike(A, B)),
    ?assertEqual(Alive, alive(B, Alive)).

%% Owners end while their registry is down, and others take their names right after its start. The other node still had the dead.
successors(A, B) ->
    [begin
         Names = names("x" ++ integer_to_list(N) ++ "_", 10),
         Dead = own_each(It, Names, #{resolver => exit}),
         heal_cluster:alike(A, B),
         heal_cluster:kill_registry(It),
         [heal_cluster:kill(It, Pid) || Pid <- Dead],
         heal_cluster:start_registry(It, [A, B], #{}),
         New = own_each(It, Names, #{resolver => exit}),
         Table = heal_cluster:alike(A, B),
         ?assertEqual([], lists:zip(Names, New) -- Table),
         ?assertEqual(New, alive(It, New))
     end || {N, It} <- [{1, A}, {2, B}, {3, A}, {4, B}]].

%% A registry that starts with other nodes keeps the names of its node.
other_nodes() ->
    Nodes = [A, B] = [heal_cluster:start(Letter) || Letter <- [a, b]],
    [heal_cluster:start_registry(It, Nodes, #{}) || It <- Nodes],
    heal_cluster:connect(A, B),
    [OnA, OnB] = [own(It, Name, #{}) || {It, Name} <- [{A, one}, {B, two}]],
    heal_cluster:alike(A, B),
    restart(B, [B]),
    ?assertEqual([{two, OnB}], heal_cluster:table(B)),
    restart(B, [A, B]),
    ?assertEqual([{one, OnA}, {two, OnB}], heal_cluster:alike(A, B)),
    [heal_cluster:stop(It) || It <- Nodes].

%% The registry is killed between the two steps in which a merge removes a row: the row is gone.
half_written(A, B) ->
    Pid = own(A, one, #{}),
    [Row] = heal_cluster:call(A, ets, lookup, [heal_registry, <<"one">>]),
    heal_cluster:kill_registry(A),
    %% A row's name, process, term and registration.
    Removed = lists:foldl(fun({N, Value}, Sum) -> setelement(N, Sum, Value) end, Row, [{2, <<"removed">>}, {3, none}, {5, none}]),
    true = heal_cluster:call(A, ets, insert, [heal_registry, Removed]),
    ?assertEqual(undefined, heal_cluster:call(A, heal_registry, whereis_name, [removed])),
    heal_cluster:start_registry(A, [A, B], #{}),
    ?assertEqual([{one, Pid}], heal_cluster:alike(A, B)).

%% The part lacks a registration of a node. Its processes find it, also while the registry is down, and a registry that starts again restores it.
restoring(A, B) ->
    #{primary := Primary} = heal_cluster:status(A),
    [It] = [Of || Of <- [A, B], heal_cluster:node_of(Of) =:= Primary],
    Term = {any, term},
    [Pid, Of] = own_each(It, [one, Term], #{}),
    heal_cluster:alike(A, B),
    heal_cluster:kill_registry(It),
    [ok = heal_cluster:call(It, ?MODULE, lack_here, [Name]) || Name <- [one, Term]],
    Call = fun(Function, Args) -> heal_cluster:call(It, heal_registry, Function, Args) end,
    ?assertEqual([Pid, Of], [Call(whereis_name, [Name]) || Name <- [one, Term]]),
    ?assertEqual({lists:sort([one, Term]), 2, [Term]}, {lists:sort(Call(names, [])), Call(count, []), Call(names, [Of])}),
    ?assertMatch(#{pid := Of, name := Term}, Call(info, [Term])),
    heal_cluster:kill(It, Of),
    ?assertEqual(undefined, Call(whereis_name, [Term])),
    heal_cluster:start_registry(It, [A, B], #{}),
    ?assertEqual([{one, Pid}], heal_cluster:alike(A, B)),
    ?assertEqual(1, Call(count, [])),
    %% What was kept in addition to the row is gone.
    ?assertEqual([], heal_cluster:call(It, ets, match, [heal_registry, {kept, {own, '$1'}, '_'}])).

%% A registry is killed after it has written rows, and before the position that has them. All nodes have one table again.
killed_while_writing(A, B) ->
    [killed_while_writing(It, A, B) || It <- [A, B, A]].

killed_while_writing(It, A, B) ->
    Before = heal_cluster:alike(A, B),
    %% The last one is a name of the node whose registry is killed.
    New = [{{name, length(Before) + N}, own(Of, {name, length(Before) + N}, #{})}
           || {N, Of} <- lists:zip(lists:seq(1, 5), [A, B, A, B, It])],
    Table = heal_cluster:alike(A, B),
    ?assertEqual(lists:sort(New ++ Before), lists:sort(Table)),
    #{view := {_, Operation}} = heal_cluster:status(It),
    heal_cluster:kill_registry(It),
    ok = heal_cluster:call(It, heal_table, changing, [Operation - 1]),
    heal_cluster:start_registry(It, [A, B], #{}),
    ?assertEqual(lists:sort(Table), lists:sort(heal_cluster:alike(A, B))).

%% Makes the table of this node as if the part lacked a name, which this node restores.
lack_here(Name) ->
    Bytes = heal_names:name(Name),
    {ok, Row} = heal_table:row(Bytes),
    ok = heal_table:rows([], [Bytes]),
    heal_table:restoring([{Bytes, Row}]).

%% A registry ends at each step of an exchange. Every name has an owner afterwards, and every loser one notice.
during_exchange(A, B) ->
    Plan = fun(It, Plan) -> ok = heal_cluster:call(It, heal_faults, plan, [Plan]) end,
    Held = fun(It) -> heal_cluster:call(It, heal_faults, held, []) =/= [] end,
    Options = #{exchange_timeout => 1000, send => fun heal_faults:send/2},
    [begin
         Names = names(lists:concat([Of, Kind, Ends]), 10),
         [OnA, OnB] = [own_each(It, Names, #{resolver => notify}) || It <- [A, B]],
         [OfA, OfB] = [primary(It) || It <- [A, B]],
         Holds = case Of of a -> OfA; b -> OfB end,
         Plan(Holds, {hold, Kind}),
         heal_cluster:connect(A, B),
         heal_cluster:eventually(fun() -> Held(Holds) end),
         restart(case Ends of a -> OfA; b -> OfB end, [A, B], Options),
         Plan(Holds, none),
         heal_cluster:call(Holds, heal_faults, release, []),
         Table = maps:from_list(heal_cluster:alike(A, B)),
         Lost = lost(Names, Table, [{A, OnA}, {B, OnB}]),
         heal_cluster:eventually(fun() -> [] =:= [Pid || {It, Pid} <- Lost, heal_cluster:mail(It, Pid) =:= []] end),
         ?assertEqual(10, length(Lost)),
         ?assertEqual([], [Mail || {It, Pid} <- Lost, Mail <- [heal_cluster:mail(It, Pid)], length(Mail) =/= 1]),
         heal_cluster:split(A, B),
         heal_cluster:apart(A, B)
     end || {Of, Kind} <- [{a, offer}, {b, offer}, {a, list}, {b, list}], Ends <- [a, b]].

%% The primary of the side of a node.
primary(Of) ->
    #{primary := Primary} = heal_cluster:status(Of),
    hd([It || It <- heal_cluster:all([Of]), heal_cluster:node_of(It) =:= Primary]).

lost(Names, Table, Owners) ->
    [{It, Pid} || {It, Pids} <- Owners, {Name, Pid} <- lists:zip(Names, Pids), map_get(Name, Table) =/= Pid].

%% A registry that ends after the merge still notifies its losers.
losers(A, B) ->
    Names = names("n", 20),
    [OnA, OnB] = [own_each(It, Names, #{resolver => notify}) || It <- [A, B]],
    ok = heal_cluster:call(A, heal_faults, plan, [{hold, finished}]),
    heal_cluster:connect(A, B),
    heal_cluster:eventually(fun() -> heal_cluster:call(A, heal_faults, held, []) =/= [] end),
    ok = heal_cluster:call(A, heal_faults, plan, [none]),
    [restart(It, [A, B], #{send => fun heal_faults:send/2}) || It <- [B, A]],
    Table = maps:from_list(heal_cluster:alike(A, B)),
    Lost = lost(Names, Table, [{A, OnA}, {B, OnB}]),
    ?assertEqual(20, length(Lost)),
    Mails = fun() -> [heal_cluster:mail(It, Pid) || {It, Pid} <- Lost] end,
    heal_cluster:eventually(fun() -> not lists:member([], Mails()) end),
    ?assertEqual([1], lists:usort([length(Mail) || Mail <- Mails()])).

%% The leader's registry fails after the merge, and its winners end before it starts again: nobody is killed for the dead.
failed_leader(A, B) ->
    Names = names("n", 20),
    [OnA, OnB] = [own_each(It, Names, #{resolver => exit}) || It <- [A, B]],
    ok = heal_cluster:call(B, heal_faults, plan, [{hold, list}]),
    heal_cluster:connect(A, B),
    heal_cluster:eventually(fun() -> heal_cluster:link_of(B) =:= joined end),
    heal_cluster:kill_registry(A),
    [heal_cluster:kill(A, Pid) || Pid <- OnA],
    heal_cluster:eventually(fun() -> heal_cluster:link_of(B) =:= apart end),
    ok = heal_cluster:call(B, heal_faults, plan, [none]),
    heal_cluster:start_registry(A, [A, B], #{}),
    heal_cluster:eventually(fun() -> length(heal_cluster:table(A)) =:= 20 end),
    ?assertEqual(lists:sort(lists:zip(Names, OnB)), heal_cluster:alike(A, B)),
    ?assertEqual(OnB, alive(B, OnB)).

%% The leader's registry ends for good before it has merged: the other node keeps its names, and nobody is notified.
failed_for_good(A, B) ->
    Names = names("n", 20),
    [_, OnB] = [own_each(It, Names, #{resolver => notify}) || It <- [A, B]],
    ok = heal_cluster:call(B, heal_faults, plan, [{hold, list}]),
    heal_cluster:connect(A, B),
    heal_cluster:eventually(fun() -> heal_cluster:link_of(B) =:= joined end),
    heal_cluster:kill_registry(A),
    heal_cluster:eventually(fun() -> heal_cluster:link_of(B) =:= apart end),
    New = own(B, new, #{}),
    ?assertEqual(lists:sort([{new, New} | lists:zip(Names, OnB)]), lists:sort(heal_cluster:table(B))),
    ?assertEqual([[]], lists:usort([heal_cluster:mail(B, Pid) || Pid <- OnB])).

%% ---- Under load ----

%% Runs a test on nodes with the application.
applications(Test) ->
    Start = fun(It, Nodes) -> heal_cluster:start_application(It, Nodes, [{exchange_timeout, 1000}]) end,
    [heal_cluster:sided(Count, [], Start, fun(_, _) -> apart end, Test) || Count <- heal_cluster:sizes()].

%% The keeper of the table ends, and then the registry: no name is lost.
keeper_ends(A, B) ->
    heal_cluster:connect(A, B),
    heal_cluster:joined(A, B),
    [OnA, OnB] = [own(It, Name, #{}) || {It, Name} <- [{A, one}, {B, two}]],
    ?assertEqual([{one, OnA}, {two, OnB}], heal_cluster:alike(A, B)),
    [begin
         Now = fun() -> heal_cluster:call(A, erlang, whereis, [Module]) end,
         Ended = Now(),
         heal_cluster:kill(A, Ended),
         heal_cluster:eventually(fun() -> not lists:member(Now(), [Ended, undefined]) end),
         ?assertEqual([{one, OnA}, {two, OnB}], heal_cluster:alike(A, B))
     end || _ <- [1, 2], Module <- [heal_keeper, heal_registry]].

%% A registry is stopped right after it has failed and started again: its names end on all nodes.
stopped_after_failure(A, B) ->
    heal_cluster:connect(A, B),
    [begin
         heal_cluster:joined(A, B),
         _ = own(B, one, #{}),
         heal_cluster:alike(A, B),
         Failed = heal_cluster:call(B, erlang, whereis, [heal_registry]),
         true = heal_cluster:call(B, erlang, exit, [Failed, kill]),
         heal_cluster:eventually(fun() -> not lists:member(heal_cluster:call(B, erlang, whereis, [heal_registry]), [Failed, undefined]) end),
         ok = heal_cluster:call(B, application, stop, [heal]),
         heal_cluster:eventually(fun() -> heal_cluster:table(A) =:= [] end),
         ok = heal_cluster:call(B, application, start, [heal])
     end || _ <- lists:seq(1, 5)],
    heal_cluster:joined(A, B).

%% The registries are killed while processes register and unregister names. Whoever was answered `ok' has its name.
under_load(A, B) ->
    heal_cluster:connect(A, B),
    heal_cluster:joined(A, B),
    Start = fun(It, Prefix) -> heal_cluster:call(It, erlang, spawn, [?MODULE, work, [Prefix, #{}]]) end,
    Workers = [{It, Start(It, Prefix)} || {It, Prefix} <- [{A, "a"}, {B, "b"}]],
    [begin
         Registry = heal_cluster:call(It, erlang, whereis, [heal_registry]),
         timer:sleep(50),
         is_pid(Registry) andalso heal_cluster:call(It, erlang, exit, [Registry, kill])
     end || It <- [A, B, B, A, A, B, A, B]],
    Expected = lists:sort(lists:append([maps:to_list(heal_cluster:call(It, ?MODULE, stop, [Pid])) || {It, Pid} <- Workers])),
    ?assert(length(Expected) > 10),
    Table = heal_cluster:alike(A, B),
    ?assertEqual([], Expected -- Table).

%% Nodes are killed and start again while processes on the others register and unregister names. Those keep what was answered `ok'.
nodes_restart(Nodes) ->
    [First, Second | _] = Nodes,
    Last = lists:last(Nodes),
    Worker = heal_cluster:call(Second, erlang, spawn, [?MODULE, work, ["w", #{}]]),
    Now = lists:foldl(fun(Ends, Running) ->
        heal_cluster:kill_node(Ends),
        timer:sleep(100),
        Again = heal_cluster:start_again(Ends),
        heal_cluster:start_registry(Again, any, #{exchange_timeout => 1000, edit_timeout => 2000}),
        Next = [case heal_cluster:node_of(It) =:= heal_cluster:node_of(Ends) of true -> Again; false -> It end || It <- Running],
        heal_cluster:mesh(Next),
        _ = own(Again, {again, Ends}, #{}),
        Next
    end, Nodes, [Last, First]),
    Kept = maps:to_list(heal_cluster:call(Second, ?MODULE, stop, [Worker])),
    Table = heal_cluster:one_part(Now),
    ?assert(length(Kept) > 10),
    ?assertEqual([], Kept -- Table),
    [heal_cluster:stop(It) || It <- Now].

%% Registers and unregisters names with its prefix until it is stopped. Keeps those of which it knows that they are registered.
work(Prefix, Names) ->
    receive
        {stop, From} -> From ! {names, self(), Names}
    after 0 ->
        Name = list_to_atom(Prefix ++ integer_to_list(rand:uniform(100))),
        Pid = spawn(heal_cluster, serve, [[]]),
        case catch heal_registry:register(Name, Pid, #{}) of
            ok -> work(Prefix, Names#{Name => Pid});
            {error, {30, _}} -> exit(Pid, kill), work(Prefix, unregistered(Name, Names));
            %% Killed meanwhile: whether the name is registered isn't known.
            _ -> exit(Pid, kill), timer:sleep(5), work(Prefix, maps:remove(Name, Names))
        end
    end.

unregistered(Name, Names) when is_map_key(Name, Names) ->
    _ = catch heal_registry:unregister_name(Name),
    maps:remove(Name, Names);
unregistered(_Name, Names) ->
    Names.

stop(Pid) ->
    Pid ! {stop, self()},
    receive {names, Pid, Names} -> Names end.

%% ---- A node that starts ----

starts_test_() ->
    {inparallel, 3, [{timeout, 240, fun starts/0}, {timeout, 120, fun first_node/0}, {timeout, 120, fun sync/0},
                     {timeout, 120, fun connects_first/0}, {timeout, 120, fun alone_first/0}]}.

%% A registry that starts next to another one doesn't register names that the other has, nor are their owners killed.
starts() ->
    Nodes = [A, B] = [heal_cluster:start(Letter) || Letter <- [a, b]],
    heal_cluster:connect(A, B),
    Names = names("x", 10),
    [begin
         heal_cluster:start_registry(Old, Nodes, #{}),
         Owners = own_each(Old, Names, #{resolver => exit}),
         _ = heal_cluster:call(New, application, load, [heal]),
         Answers = heal_cluster:call(New, ?MODULE, start_and_register, [[heal_cluster:node_of(It) || It <- Nodes], Names, #{}]),
         ?assertEqual([30], lists:usort([Number || {error, {Number, _}} <- Answers])),
         ?assertEqual(lists:sort(lists:zip(Names, Owners)), heal_cluster:alike(A, B)),
         ?assertEqual(Owners, alive(Old, Owners)),
         [heal_cluster:kill(Old, Pid) || Pid <- Owners],
         [begin
              Parent = heal_cluster:call(It, erlang, whereis, [heal_cluster_parent]),
              heal_cluster:kill(It, Parent),
              Gone = fun(Name) -> heal_cluster:call(It, erlang, whereis, [Name]) =:= undefined end,
              heal_cluster:eventually(fun() -> Gone(heal_registry) andalso Gone(heal_keeper) end)
          end || It <- Nodes]
     end || {Old, New} <- lists:append(lists:duplicate(3, [{A, B}, {B, A}]))],
    [heal_cluster:stop(It) || It <- Nodes].

start_and_register(Nodes, Names, Options) ->
    ok = heal_cluster:registry(Nodes, Options),
    [heal_registry:register(Name, spawn(heal_cluster, serve, [[]]), #{resolver => exit}) || Name <- Names].

%% A registry that connects the nodes at its start registers nothing before.
connects_first() ->
    Nodes = [A, B] = [heal_cluster:start(Letter) || Letter <- [a, b]],
    Names = names("x", 20),
    heal_cluster:start_registry(A, Nodes, #{}),
    Owners = own_each(A, Names, #{resolver => exit}),
    Answers = heal_cluster:call(B, ?MODULE, start_and_register, [[heal_cluster:node_of(It) || It <- Nodes], Names,
                                                                #{reconnect_interval => 1000}]),
    ?assertEqual([30], lists:usort([Number || {error, {Number, _}} <- Answers])),
    ?assertEqual(ok, heal_cluster:call(B, heal_registry, sync, [])),
    ?assertEqual(lists:sort(lists:zip(Names, Owners)), heal_cluster:alike(A, B)),
    ?assertEqual(Owners, alive(A, Owners)),
    [heal_cluster:stop(It) || It <- Nodes].

%% It doesn't wait for a node that doesn't run.
alone_first() ->
    A = heal_cluster:start(a),
    B = heal_cluster:start(b),
    heal_cluster:stop(B),
    heal_cluster:start_registry(A, [A, B], #{reconnect_interval => 1000, edit_timeout => 8000}),
    ?assertEqual(ok, heal_cluster:call(A, heal_registry, sync, [])),
    Pid = own(A, one, #{}),
    ?assertEqual([{one, Pid}], heal_cluster:table(A)),
    heal_cluster:stop(A).

%% A node doesn't wait for a node that runs no registry.
first_node() ->
    Nodes = [A, B] = [heal_cluster:start(Letter) || Letter <- [a, b]],
    heal_cluster:connect(A, B),
    [begin
         heal_cluster:start_registry(It, Nodes, #{edit_timeout => 20000, exchange_timeout => 20000}),
         {Time, ok} = timer:tc(fun() -> heal_cluster:call(It, heal_registry, sync, []) end),
         ?assert(Time < 5_000_000),
         Pid = own(It, Name, #{}),
         ?assertEqual([{Name, Pid}], heal_cluster:table(It)),
         heal_cluster:kill(It, heal_cluster:call(It, erlang, whereis, [heal_cluster_parent]))
     end || {It, Name} <- [{A, one}, {B, two}]],
    [heal_cluster:stop(It) || It <- Nodes].

%% After sync/0 a node knows all names.
sync() ->
    Nodes = [A, B] = [heal_cluster:start(Letter) || Letter <- [a, b]],
    heal_cluster:start_registry(A, Nodes, #{}),
    ?assertEqual(ok, heal_cluster:call(A, heal_registry, sync, [])),
    Table = lists:sort([{Name, own(A, Name, #{})} || Name <- names("x", 50)]),
    heal_cluster:connect(A, B),
    heal_cluster:start_registry(B, Nodes, #{}),
    ?assertEqual(ok, heal_cluster:call(B, heal_registry, sync, [])),
    ?assertEqual(Table, heal_cluster:table(B)),
    ?assertEqual(ok, heal_cluster:call(A, heal_registry, sync, [])),
    [heal_cluster:stop(It) || It <- Nodes].
