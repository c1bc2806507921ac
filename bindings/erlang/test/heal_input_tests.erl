%% heal_registry with calls, settings and messages that aren't valid, with a full table, and when it isn't running.
-module(heal_input_tests).

-include_lib("eunit/include/eunit.hrl").

-define(REGISTER, {heal_registry, register}).

registry(Of) ->
    heal_cluster:call(Of, erlang, whereis, [heal_registry]).

register_on(Of, Args) ->
    heal_cluster:call(Of, heal_registry, register, Args).

pid_on(Of) ->
    heal_cluster:call(Of, erlang, spawn, [heal_cluster, serve, [[]]]).

%% Runs a test on two joined nodes whose registries must not end, nor lose the names `one' and `two'.
lasting({Title, Test}) ->
    {Title, heal_cluster:pair(#{send => fun heal_faults:send/2}, fun(A, B) ->
        Names = [{Name, heal_cluster:own(It, ?REGISTER, Name, #{})} || {It, Name} <- [{A, one}, {B, two}]],
        Registries = [registry(It) || It <- [A, B]],
        #{number := Number} = heal_cluster:status(A),
        Test(A, B),
        ?assertEqual(Registries, [registry(It) || It <- [A, B]]),
        ?assertEqual(Names, heal_cluster:alike(A, B)),
        ?assertMatch(#{number := Number}, heal_cluster:status(A))
    end)}.

all_test_() ->
    {inparallel, 3, lists:map(fun lasting/1, [
        {"unknown calls", fun unknown_calls/2},
        {"bad setting", fun bad_setting/2},
        {"bad processes", fun bad_processes/2},
        {"bad requests", fun bad_requests/2},
        {"bad messages", fun bad_messages/2},
        {"full table", fun full_table/2}
    ])}.

unknown_calls(A, B) ->
    [?assertEqual({error, unknown_call}, heal_cluster:call(It, gen_server, call, [heal_registry, Call]))
     || It <- [A, B], Call <- [hello, {register, 1, 2}, {upload, x}, {stop}, 7]],
    [?assertEqual({error, bad_edit}, heal_cluster:call(It, gen_server, call, [heal_registry, {edit, Edit}]))
     || It <- [A, B], Edit <- [hello, {unregister, 7, any}, {adopt, <<"x">>, x, #{}, self(), node()}, {upload, x}]],
    [begin
         ok = heal_cluster:call(It, gen_server, cast, [heal_registry, Message]),
         Message = heal_cluster:call(It, erlang, send, [heal_registry, Message])
     end || It <- [A, B], Message <- [hello, timeout, {edit, x}, {timeout, make_ref(), edits}, {'DOWN', make_ref(), process, self(), x}]].

%% The application's setting is checked in the caller.
bad_setting(A, B) ->
    [ok = heal_cluster:call(It, application, set_env, [heal, resolver, later]) || It <- [A, B]],
    [?assertError({bad_setting, resolver, later}, heal_cluster:call(It, heal_registry, register_name, [x, pid_on(It)]))
     || It <- [A, B]],
    ?assertEqual(ok, register_on(B, [x, pid_on(B), #{resolver => notify}])),
    ok = heal_cluster:call(A, heal_registry, unregister_name, [x]).

bad_processes(A, B) ->
    Dead = heal_cluster:call(A, erlang, list_to_pid, ["<0.30000.0>"]),
    [?assertEqual({error, noproc}, register_on(It, [x, Dead, #{}])) || It <- [A, B]],
    ?assertEqual(no, heal_cluster:call(A, heal_registry, register_name, [x, Dead])),
    Port = heal_cluster:call(A, erlang, hd, [heal_cluster:call(A, erlang, ports, [])]),
    [?assertError(badarg, register_on(A, [x, Pid, #{}])) || Pid <- [Port, none, 7, make_ref()]],
    [?assertError(badarg, register_on(A, [x, pid_on(A), Options]))
     || Options <- [x, [], [{weight, 1}], #{1 => 2}, #{stamp => 1.0}]].

%% A broken node sends requests that the primary can't carry out.
bad_requests(A, B) ->
    Pid = pid_on(B),
    Registration = #{owner => {2, 1}, stamp => 0, weight => 0, extra => <<0:128>>, resolver => exit},
    Row = fun(Of) -> {row, Of, Pid, x, {heal_cluster:node_of(B), 1}} end,
    Edits = [{register, <<"x">>, Row(Registration#{resolver := later})}, {register, <<"x y">>, Row(Registration)},
             {register, <<"x">>, Row(maps:remove(stamp, Registration))}, {register, <<"x">>, setelement(3, Row(Registration), none)},
             {register, <<"x">>, Row(#{owner => {-1, 0}})}, {register, <<"x">>, x}, {upload, none, none},
             {unregister, none, any}, hello],
    #{number := Number} = heal_cluster:status(A),
    [begin
         ok = heal_cluster:call(B, heal_faults, plan, [{replace_edit, Edit}]),
         ?assertEqual({error, bad_edit}, register_on(B, [x, Pid, #{}]))
     end || Edit <- Edits],
    ok = heal_cluster:call(B, heal_faults, plan, [none]),
    ?assertMatch(#{number := Number}, heal_cluster:status(A)).

bad_messages(A, B) ->
    Life = {heal_cluster:node_of(A), 1},
    Bodies = [hello, {ask}, {ask, x, y}, {hello, x}, {here, 7}, {here, #{}}, {here, #{life => Life, seq => -1}}, {offer, 1},
              {offer, 1, 2, 3, 4}, {offer, 99, 1, {x, #{}, #{}, []}, none}, {offer, 99, 1, {<<>>, #{<<"x">> => y}, #{}, []}, none},
              {hello, Life, 1 bsl 63, []},
              {offer, 99, 1, {<<>>, [x], #{}, []}, none}, {offer, 99, 1, {<<>>, [{1, Life, []} | x], #{}, []}, none},
              {offer, 99, 1, {<<>>, [{1, x, []}], #{}, []}, none}, {offer, 99, 1, {<<>>, [{-1, Life, []}], #{}, []}, none},
              {offer, 99, 1, {<<>>, [{1, Life, [{<<"x">>, 1, x}]}], #{}, []}, none},
              {offer, 99, 1, {<<>>, [{1, Life, [{<<"x y">>, 1, self()}]}], #{}, []}, none},
              {offer, 99, 1, {<<>>, [{1, Life, [{<<"x">>, -1, self(), x}]}], #{}, []}, none}, {list, 1, 2}, {list, -1, {<<>>, []}}, {abandon, x, none}, {abandon, 1, "x"},
              {finished, x}, {finished, 1, x}, {finished, 1, x, 2, []}, {edit, 1, 2, 3, 4}, {edit, {{Life, 1}, 1}, [x], none, ok},
              {edit, {{Life, 1}, 1}, [{register, <<"x">>, y} | z], none, ok}, {request, x, y, z}, {answer, 1, x, ok},
              {snapshot, x}, {snapshot, {{{{Life, 1}, 1}, x}, []}}, {want, x}, {settled, x}, {adopt, x, y}, {adopted, x, y},
              {released, 1, x}, {busy, x}, {ready, x}, {cancel, x}, {bundle, x}, {bundle, [x | y]},
              {bundle, [x, {edit, 1, 2, 3, 4}, {bundle, []}]}, [a | b], 7],
    Send = fun(From, To, Body) ->
        Message = {heal_registry, 3, heal_cluster:node_of(From), Body},
        heal_cluster:call(From, erlang, send, [{heal_registry, heal_cluster:node_of(To)}, Message])
    end,
    [Send(From, To, Body) || {From, To} <- [{A, B}, {B, A}], Body <- Bodies].

%% 4,096 names are in the table, and one more is refused. The log has the reason of a `no'.
full_table(A, B) ->
    Names = ["full" ++ integer_to_list(N) || N <- lists:seq(1, 4094)],
    Pid = pid_on(A),
    lists:foreach(fun(Name) -> ok = register_on(A, [Name, Pid, #{}]) end, Names),
    heal_logs:collect(A),
    [?assertMatch({error, {32, <<_/binary>>}}, register_on(It, [more, pid_on(It), #{}])) || It <- [A, B]],
    ?assertEqual(no, heal_cluster:call(A, heal_registry, register_name, [more, Pid])),
    ?assertEqual(no, heal_cluster:call(A, heal_registry, register_name, [one, Pid])),
    ?assertMatch([_], [Text || Text <- heal_logs:texts(A), string:find(Text, "more isn't registered") =/= nomatch]),
    heal_cluster:kill(A, Pid).

%% ---- Settings ----

%% A registry doesn't start with a wrong setting, of its options or of the application, and names it. One that starts next is whole.
settings_test_() ->
    {timeout, 120, fun() ->
        A = heal_cluster:start(a),
        Start = fun(Options) -> heal_cluster:call(A, heal_disk_tests, start_here, [Options]) end,
        ?assertMatch({error, {{bad_setting, nodes, none}, _}}, Start(#{nodes => none})),
        [?assertMatch({error, {{bad_setting, nodes, Nodes}, _}}, Start(#{nodes => Nodes})) || Nodes <- [[b@c], [], [b@c | x]]],
        ?assertMatch({error, {{bad_setting, send, x}, _}}, Start(#{nodes => any, send => x})),
        Wrong = [{Key, Value} || Key <- [names, edit_timeout, exchange_timeout], Value <- [-1, 0, 1.5, x, "1", 2_000_000_001]] ++ [{names, 1048577}],
        Reconnects = [{reconnect_interval, Value} || Value <- [-1, 1.5, x, 1 bsl 40 + 1]],
        _ = heal_cluster:call(A, application, load, [heal]),
        [?assertMatch({error, {{bad_setting, Key, Value}, _}}, Start(#{nodes => any, Key => Value}))
         || {Key, Value} <- Wrong ++ Reconnects],
        %% Also where dist_auto_connect of the kernel turns the attempts off.
        [in_application(A, Key, Value, Start) || {Key, Value} <- Wrong ++ Reconnects],
        Of = heal_cluster:node_of(A),
        [in_application(A, node_numbers, Value, Start)
         || Value <- [none, [], [{Of, 1}], #{Of => 1 bsl 32}, #{b@c => -1}, #{"b@c" => 1}, #{b@c => 1.0}]],
        heal_cluster:start_registry(A, [A], #{}),
        Pid = heal_cluster:own(A, ?REGISTER, one, #{}),
        ?assertEqual([{one, Pid}], heal_cluster:table(A)),
        heal_cluster:stop(A)
    end}.

in_application(A, Key, Value, Start) ->
    {ok, Usual} = heal_cluster:call(A, application, get_env, [heal, Key]),
    ok = heal_cluster:call(A, application, set_env, [heal, Key, Value]),
    ?assertMatch({error, {{bad_setting, Key, Value}, _}}, Start(#{nodes => any})),
    ok = heal_cluster:call(A, application, set_env, [heal, Key, Usual]).

%% With the longest timeouts and the longest interval two nodes join, and their callers are answered.
longest_timeouts_test_() ->
    {timeout, 120, fun() ->
        Nodes = [A, B] = [heal_cluster:start(Letter) || Letter <- [a, b]],
        Longest = #{edit_timeout => 2_000_000_000, exchange_timeout => 2_000_000_000, reconnect_interval => 1 bsl 40},
        [heal_cluster:start_registry(It, any, Longest) || It <- Nodes],
        heal_cluster:mesh(Nodes),
        heal_cluster:one_part(Nodes),
        Pids = [heal_cluster:own(It, ?REGISTER, Name, #{}) || {It, Name} <- [{A, one}, {B, two}]],
        ?assertEqual(lists:zip([one, two], Pids), heal_cluster:alike(A, B)),
        [heal_cluster:stop(It) || It <- Nodes]
    end}.

%% ---- Failures ----

%% What a registry shows of its state and its last message doesn't grow with its names.
shown_status_test_() ->
    {timeout, 120, fun() ->
        A = heal_cluster:start(a),
        heal_cluster:start_registry(A, any, #{}),
        Pid = pid_on(A),
        [ok = register_on(A, [{name, N}, Pid, #{}]) || N <- lists:seq(1, 500)],
        Status = heal_cluster:call(A, sys, get_status, [heal_registry]),
        ?assert(erlang:external_size(Status) < 20_000),
        ?assertMatch({status, _, _, [_, _, _, _, [_, _, {data, [{"State", #{names := 500, link := apart}}]}]]}, Status),
        Message = heal_cluster:call(A, heal_server, format_status, [#{message => lists:seq(1, 100_000), reason => x}]),
        ?assertMatch(#{reason := x, message := <<"[1,2,3", _/binary>>}, Message),
        ?assert(byte_size(map_get(message, Message)) < 1000),
        heal_cluster:stop(A)
    end}.

%% ---- Arguments ----

%% A call with an argument of another kind raises `badarg', also without a registry.
bad_arguments_test_() ->
    [{lists:flatten(io_lib:format("~p:~p ~0p", [Module, Function, Args])), ?_assertError(badarg, apply(Module, Function, Args))}
     || {Module, Calls} <- [{heal_registry, registry_calls(self())}, {heal_resolver, resolver_calls(self())}], {Function, Args} <- Calls].

registry_calls(Pid) ->
    [{start_link, [x]}, {start_link, [#{}]}, {register, [x, none, #{}]}, {register, [x, Pid, []]}, {register, [x, Pid, #{weight => -1}]},
     {register_name, [x, none]}, {update, [x, []]}, {update, [x, #{weight => x}]}, {set_resolver, [x, later]}, {upload, [x]},
     {upload, [<<1:9>>]}, {names, [x]}, {subscribe, [x]}, {unsubscribe, [x]}].

resolver_calls(Pid) ->
    [{upload, [x]}, {upload, [<<1:9>>]}, {register, [x, none, #{}]}, {register, [x, Pid, []]}, {register, [x, Pid, #{stamp => -1}]},
     {register_name, [x, none]}, {register_name, [x, none, #{}]}, {register_name, [x, Pid, []]}, {resolve, [x, none, Pid]},
     {resolve, [x, Pid, none]}].

%% ---- Not running ----

not_running_test() ->
    Keeper = whereis(heal_keeper),
    is_pid(Keeper) andalso exit(Keeper, kill),
    heal_cluster:eventually(fun() -> whereis(heal_keeper) =:= undefined end),
    [?assertExit({not_running, heal_registry}, Call())
     || Call <- [fun() -> apply(heal_registry, Function, Args) end
                 || {Function, Args} <- [{names, []}, {whereis_name, [db]}, {status, []}, {register_name, [db, self()]},
                                         {register, [db, self(), #{}]}, {unregister_name, [db]}, {send, [db, x]},
                                         {upload, [<<1>>]}, {sync, []}]]].
