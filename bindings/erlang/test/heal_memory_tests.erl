%% What a name takes in memory: in the heap of a registry, in its table, and next to `global'.
-module(heal_memory_tests).

-include_lib("eunit/include/eunit.hrl").
-include("../src/heal_part.hrl").

-export([used/0, heap/0, monitors/0, processes_here/1, register_here/3, edit_here/2]).

-define(NAMES, 4096).
%% On nodes. Heaps grow in steps, so the bytes for a name depend on how many there are.
-define(MORE_NAMES, 8192).

registration(Serial, Resolver) ->
    #{owner => {7, Serial}, stamp => 1700000000000 + Serial, weight => 0, extra => <<0:128>>, resolver => Resolver}.

row(Name, Serial, Resolver) ->
    heal_row:new(Name, registration(Serial, Resolver), self(), Name, {node(), 1700000000000000000}).

%% A half as it arrives from another node: no two terms share anything.
arrived(Resolver) ->
    Names = [{Name, row(Name, N, Resolver)} || N <- lists:seq(1, ?NAMES), Name <- [<<"name", (integer_to_binary(N))/binary>>]],
    Apart = maps:map(fun(_, Row) -> binary_to_term(term_to_binary(heal_row:sent(Row))) end, maps:from_list(Names)),
    #half{names = maps:map(fun heal_row:received/2, Apart), programs = #{<<9:256>> => <<>>}}.

%% ---- Rows ----

%% A registration is the same as a row, and as it crosses the wire. The wire has the rows of every version.
same_registration_test() ->
    [begin
         Registration = (registration(3, Resolver))#{weight := Weight, extra := Extra},
         Row = heal_row:new(<<"db">>, Registration, self(), db, {node(), 5}),
         ?assertEqual(Registration, heal_row:registration(Row)),
         ?assertEqual({row, Registration, self(), db, {node(), 5}}, heal_row:sent(Row)),
         ?assertEqual(Row, heal_row:received(<<"db">>, heal_row:sent(Row))),
         ?assertEqual([Row, Row], [heal_row:upgrade(<<"db">>, Of) || Of <- [Row, heal_row:sent(Row)]])
     end || Resolver <- [exit, notify, notify_all, {program, <<9:256>>}], Weight <- [0, 7], Extra <- [<<0:128>>, <<1:128>>]].

%% Those of the stamp and the options change that are given.
change_test() ->
    Before = registration(3, exit),
    [?assertEqual(maps:merge(Before, Changes), heal_row:registration(heal_row:change(row(<<"db">>, 3, exit), Changes)))
     || Changes <- [#{}, #{stamp => 1}, #{weight => 2}, #{extra => <<3:128>>}, #{resolver => notify},
                    #{stamp => 1, weight => 2, extra => <<3:128>>, resolver => {program, <<9:256>>}}]].

%% Rows that arrive share what they have alike, also their programs: a name takes no more words than the map needs for it, its bytes, its
%% row and its owner.
shared_rows_test() ->
    [begin
         {_, Half} = heal_replica:compact({{{{node(), 1}, 1}, 0}, arrived(Resolver)}, heal_replica:start({node(), 1})),
         Words = erts_debug:size(Half) / ?NAMES,
         ?assert(Words < 17, {Resolver, Words})
     end || Resolver <- [exit, notify, notify_all, {program, <<9:256>>}]].

%% A snapshot keeps the rows that a replica has already: what else refers to them shares them.
known_rows_test() ->
    At = {{{node(), 1}, 1}, 0},
    Empty = heal_replica:start({node(), 2}),
    {ok, Replica} = heal_replica:follow(heal_replica:compact({At, arrived(notify)}, Empty), Empty),
    {_, #half{names = Names}} = heal_replica:compact({At, arrived(notify)}, Replica),
    #half{names = Known} = heal_replica:half(Replica),
    ?assertEqual([], [Name || {Name, Row} <- maps:to_list(Names), not erts_debug:same(Row, map_get(Name, Known))]).

%% Bodies cross the wire with nested rows, and come out as they went in.
wire_test() ->
    Row = row(<<"db">>, 3, exit),
    At = {{{node(), 1}, 1}, 2},
    Sent = {row, registration(3, exit), self(), <<"db">>, {node(), 1700000000000000000}},
    [begin
         {heal_registry, 3, _, Nested} = heal_wire:message(Body),
         ?assertEqual(Expected, Nested),
         ?assertEqual({ok, Body}, heal_wire:body(Nested))
     end || {Body, Expected} <- [
         {{snapshot, {{At, #half{names = #{<<"db">> => Row}}}, []}}, {snapshot, {{At, {half, #{<<"db">> => Sent}, #{}, 0}}, []}}},
         {{edit, At, [{register, <<"db">>, Row}, {unregister, <<"x">>}], none, ok},
          {edit, At, [{register, <<"db">>, Sent}, {unregister, <<"x">>}], none, ok}},
         {{request, element(1, At), 4, {register, <<"db">>, Row}}, {request, element(1, At), 4, {register, <<"db">>, Sent}}},
         {{finished, 1, At, 2, [{register, <<"db">>, Row}]}, {finished, 1, At, 2, [{register, <<"db">>, Sent}]}},
         {{settled, At}, {settled, At}}
     ]],
    %% A flat row doesn't cross the wire.
    ?assertEqual(error, heal_wire:body({edit, At, [{register, <<"db">>, Row}], none, ok})),
    ?assertEqual({ok, {request, element(1, At), 4, bad}}, heal_wire:body({request, element(1, At), 4, {register, <<"db">>, Row}})).

%% ---- Watched processes ----

%% A process that ends takes all its names along, and no others.
watched_test() ->
    Pid = spawn(fun() -> receive stop -> ok end end),
    Watch = fun(Name, Sum) -> heal_watching:watch(Name, Pid, Sum) end,
    One = Watch(<<"a">>, heal_watching:new()),
    Three = lists:foldl(Watch, One, [<<"b">>, <<"c">>]),
    Other = heal_watching:watch(<<"x">>, self(), Three),
    ?assertMatch({[<<"a">>], _}, heal_watching:ended(Pid, One)),
    {Names, Rest} = heal_watching:ended(Pid, Other),
    ?assertEqual([<<"a">>, <<"b">>, <<"c">>], lists:sort(Names)),
    ?assertEqual(none, heal_watching:ended(Pid, Rest)),
    Two = heal_watching:unwatch(<<"b">>, Pid, Other),
    ?assertEqual([<<"a">>, <<"c">>], lists:sort(element(1, heal_watching:ended(Pid, Two)))),
    None = lists:foldl(fun(Name, Sum) -> heal_watching:unwatch(Name, Pid, Sum) end, Two, [<<"c">>, <<"none">>, <<"a">>]),
    ?assertMatch({[], _}, heal_watching:ended(Pid, None)),
    ?assertMatch({[<<"d">>], _}, heal_watching:ended(Pid, Watch(<<"d">>, None))),
    ?assertMatch({[], _}, heal_watching:ended(Pid, heal_watching:unwatch(<<"a">>, Pid, One))),
    %% One monitor each.
    {monitors, Monitors} = process_info(self(), monitors),
    ?assertEqual([Pid], [Of || {process, Of} <- Monitors, Of =:= Pid]),
    exit(Pid, kill),
    receive {'DOWN', _, process, Pid, killed} -> ok end.

%% ---- The heap ----

%% A tick collects the garbage of edits once no row has changed for a while, and while edits go on only where the heap has more than they
%% leave.
ticks_test() ->
    Self = self(),
    spawn_link(fun() -> Self ! {ticked, ticks(lists:seq(1, 100000))} end),
    receive {ticked, Collected} -> ?assertEqual([false, false, false, true, true], Collected) end.

%% Whether each tick has collected the garbage that was made before it. `Live' isn't garbage.
ticks(Live) ->
    {First, Changed} = ticked(true, 1, 400000, heal_heap:new(0)),
    {Busy, Still} = ticked(true, 1, 200000, Changed),
    timer:sleep(200),
    {Exchanging, Waiting} = ticked(false, 0, 200000, Still),
    {Quiet, Again} = ticked(true, 0, 200000, Waiting),
    {Large, _} = ticked(true, 1, 4000000, Again),
    100000 = length(Live),
    [First, Busy, Exchanging, Quiet, Large].

%% Makes a list of this length, which is garbage then, in a registry of 10,000 names.
ticked(IsIdle, Changes, Length, Heap) ->
    Length = length(lists:seq(1, Length)),
    Before = total_words(),
    Next = heal_heap:tick(IsIdle, 10000, heal_heap:changed(Changes, Heap)),
    {total_words() < Before, Next}.

total_words() ->
    {total_heap_size, Words} = process_info(self(), total_heap_size),
    Words.

%% ---- On nodes ----

memory_test_() ->
    {inparallel, 2, [{timeout, 240, fun next_to_global/0}, heal_cluster:cluster(2, #{}, fun after_a_heal/1),
                     heal_cluster:cluster(2, #{}, fun many_edits/1)]}.

%% A name takes no more memory than in `global', on the node of its process and on the other one.
next_to_global() ->
    Nodes = [A, _] = [heal_cluster:start(Letter, ["-kernel", "prevent_overlapping_partitions", "false"]) || Letter <- [a, b]],
    [heal_cluster:start_registry(It, any, #{names => ?MORE_NAMES}) || It <- Nodes],
    heal_cluster:mesh(Nodes),
    heal_cluster:one_part(Nodes),
    [ok = heal_cluster:call(It, global, sync, []) || It <- Nodes],
    [Global, Registry] = [taken(It, Nodes, A) || It <- [global, heal_registry]],
    [?assert(Own =< Of, {Own, Of}) || {Own, Of} <- lists:zip(Registry, Global)],
    [heal_cluster:stop(It) || It <- Nodes].

taken(Registry, Nodes, A) ->
    Names = [<<"name", (integer_to_binary(N))/binary>> || N <- lists:seq(1, ?MORE_NAMES)],
    Pids = heal_cluster:call(A, ?MODULE, processes_here, [?MORE_NAMES]),
    Before = [heal_cluster:call(It, ?MODULE, used, []) || It <- Nodes],
    heal_cluster:call(A, ?MODULE, register_here, [Registry, Names, Pids]),
    [heal_cluster:eventually(fun() -> heal_cluster:call(It, Registry, whereis_name, [lists:last(Names)]) =:= lists:last(Pids) end)
     || It <- Nodes],
    After = [heal_cluster:call(It, ?MODULE, used, []) || It <- Nodes],
    [(Now - Then) / ?MORE_NAMES || {Now, Then} <- lists:zip(After, Before)].

processes_here(Count) ->
    [spawn(heal_cluster, serve, [[]]) || _ <- lists:seq(1, Count)].

register_here(Registry, Names, Pids) ->
    [yes = Registry:register_name(Name, Pid) || {Name, Pid} <- lists:zip(Names, Pids)],
    ok.

%% What the processes and tables of a node take, without garbage. A collection may leave a heap with room for what follows, and the next one
%% without.
used() ->
    lists:min([used_now() || _ <- lists:seq(1, 4)]).

used_now() ->
    [erlang:garbage_collect(Pid) || Pid <- processes()],
    timer:sleep(300),
    erlang:memory(processes_used) + erlang:memory(ets) + erlang:memory(binary).

%% An exchange has room for 300 words for each name. It leaves no such heap behind.
after_a_heal(Nodes = [A, B]) ->
    heal_cluster:split_into([[A], [B]]),
    [heal_cluster:one_part([It]) || It <- Nodes],
    Names = [{clash, N} || N <- lists:seq(1, 2000)],
    [heal_cluster:own_each(It, {heal_registry, register}, Names, #{resolver => notify}) || It <- Nodes],
    heal_cluster:mesh(Nodes),
    ?assertEqual(2000, length(heal_cluster:one_part(Nodes))),
    [heal_cluster:eventually(fun() ->
         #{heap := Words, least := Least} = heal_cluster:call(It, ?MODULE, heap, []),
         Words < 100 * 2000 andalso Least < 100 * 2000
     end) || It <- Nodes].

heap() ->
    [{total_heap_size, Words}, {garbage_collection, Settings}] =
        process_info(whereis(heal_registry), [total_heap_size, garbage_collection]),
    #{heap => Words, least => proplists:get_value(min_heap_size, Settings)}.

%% A process that registers and unregisters names all the time is watched once, and those that end aren't watched any more.
many_edits([A, _]) ->
    Before = heal_cluster:call(A, ?MODULE, monitors, []),
    Pid = heal_cluster:call(A, erlang, spawn, [heal_cluster, serve, [[]]]),
    heal_cluster:call(A, ?MODULE, edit_here, [Pid, 3000]),
    ?assertEqual(Before + 1, heal_cluster:call(A, ?MODULE, monitors, [])),
    heal_cluster:kill(A, Pid),
    Pids = heal_cluster:call(A, ?MODULE, processes_here, [500]),
    heal_cluster:call(A, ?MODULE, register_here, [heal_registry, lists:seq(1, 500), Pids]),
    ?assertEqual(Before + 500, heal_cluster:call(A, ?MODULE, monitors, [])),
    [true = heal_cluster:call(A, erlang, exit, [Of, kill]) || Of <- Pids],
    heal_cluster:eventually(fun() -> heal_cluster:call(A, ?MODULE, monitors, []) =:= Before end),
    ?assertEqual(0, heal_cluster:call(A, heal_registry, count, [])).

edit_here(Pid, Count) ->
    [begin
         ok = heal_registry:register({edit, N}, Pid, #{}),
         ok = heal_registry:unregister_name({edit, N})
     end || N <- lists:seq(1, Count)],
    ok.

%% Returns how many processes of its node the registry monitors.
monitors() ->
    {monitors, Monitors} = process_info(whereis(heal_registry), monitors),
    length([Pid || {process, Pid} <- Monitors, is_pid(Pid)]).
