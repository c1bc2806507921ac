%% Which nodes heal_registry meets: its scope, hidden nodes, other versions, equal numbers. Names of any term, and subscriptions.
-module(heal_meets_tests).

-include_lib("eunit/include/eunit.hrl").

-export([at_once_here/1, looks_up/2]).

-define(REGISTER, {heal_registry, register}).

own(It, Name) ->
    heal_cluster:own(It, ?REGISTER, Name, #{resolver => notify}).

pid_on(Of) ->
    heal_cluster:call(Of, erlang, spawn, [heal_cluster, serve, [[]]]).

call(It, Function, Args) ->
    heal_cluster:call(It, heal_registry, Function, Args).

separate() ->
    ["-connect_all", "false", "-kernel", "prevent_overlapping_partitions", "false"].

meets_test_() ->
    {inparallel, 2, [
        {timeout, 120, fun scopes/0},
        {timeout, 120, fun hidden/0},
        {timeout, 120, fun numbers/0},
        {timeout, 120, fun older_version/0},
        {timeout, 120, fun some_nodes/0},
        heal_cluster:cluster(3, #{}, fun any_term/1),
        heal_cluster:cluster(2, #{}, fun subscribed/1),
        heal_cluster:cluster(2, #{}, fun in_order/1),
        heal_cluster:cluster(3, #{}, fun members/1)
    ]}.

refused(It, Problem) ->
    heal_cluster:eventually(fun() -> is_map_key(Problem, maps:get(problems, heal_cluster:status(It))) end).

logged(It, Words) ->
    length([Text || Text <- heal_logs:texts(It), string:find(Text, Words) =/= nomatch]).

%% Registries of two scopes have nothing to do with each other, and show so once.
scopes() ->
    Nodes = [A, B, C] = [heal_cluster:start(Letter, separate()) || Letter <- [a, b, c]],
    [heal_cluster:start_registry(It, any, #{scope => Scope}) || {It, Scope} <- [{A, one}, {B, two}, {C, one}]],
    [heal_logs:collect(It) || It <- Nodes],
    heal_cluster:mesh(Nodes),
    Pids = [own(It, db) || It <- [A, B]],
    heal_cluster:one_part([A, C]),
    [refused(It, scope) || It <- [A, B]],
    ?assertEqual([[{db, Pid}] || Pid <- Pids], [heal_cluster:table(It) || It <- [A, B]]),
    ?assertEqual({error, apart}, call(B, sync, [])),
    [?assertEqual(1, logged(It, "scope")) || It <- [A, B]],
    [heal_cluster:stop(It) || It <- Nodes].

%% A hidden node isn't part of the cluster, unless the setting names it.
hidden() ->
    Nodes = [A, B, H] = [heal_cluster:start(Letter, separate() ++ Args) || {Letter, Args} <- [{a, []}, {b, []}, {h, ["-hidden"]}]],
    [heal_cluster:start_registry(It, any, #{}) || It <- Nodes],
    [heal_logs:collect(It) || It <- Nodes],
    heal_cluster:mesh(Nodes),
    [OnA, OnH] = [own(It, db) || It <- [A, H]],
    ?assertEqual([{db, OnA}], heal_cluster:one_part([A, B])),
    [refused(It, hidden) || It <- Nodes],
    ?assertEqual([{db, OnH}], heal_cluster:table(H)),
    [?assertEqual(1, logged(It, "hidden node")) || It <- [A, B]],
    [heal_cluster:stop(It) || It <- Nodes].

%% Two nodes of one number stay apart and say so; a third one is in a part with one of them.
numbers() ->
    Nodes = [A, B, C] = [heal_cluster:start(Letter, separate()) || Letter <- [a, b, c]],
    Same = maps:from_list([{heal_cluster:node_of(It), 7} || It <- [A, B]]),
    [begin
         _ = heal_cluster:call(It, application, load, [heal]),
         ok = heal_cluster:call(It, application, set_env, [heal, node_numbers, Same]),
         heal_cluster:start_registry(It, any, #{}),
         heal_logs:collect(It)
     end || It <- Nodes],
    heal_cluster:mesh(Nodes),
    [refused(It, numbers) || It <- Nodes],
    OnA = own(A, one),
    OnB = own(B, one),
    ?assertEqual([{one, OnA}], heal_cluster:table(A)),
    ?assertEqual([{one, OnB}], heal_cluster:table(B)),
    [?assert(logged(It, "set node_numbers") >= 1) || It <- [A, B]],
    heal_cluster:eventually(fun() -> lists:member(heal_cluster:table(C), [[{one, OnA}], [{one, OnB}]]) end),
    [heal_cluster:stop(It) || It <- Nodes].

%% A node of the protocol for two nodes is refused with one log line, and receives a message of the new version.
older_version() ->
    Nodes = [A, B, Old] = [heal_cluster:start(Letter, separate()) || Letter <- [a, b, c]],
    [heal_cluster:start_registry(It, any, #{}) || It <- [A, B]],
    [heal_logs:collect(It) || It <- [A, B]],
    Mailbox = pid_on(Old),
    true = heal_cluster:call(Old, erlang, register, [heal_registry, Mailbox]),
    heal_cluster:mesh(Nodes),
    Of = heal_cluster:node_of(Old),
    [heal_cluster:call(Old, erlang, send, [{heal_registry, heal_cluster:node_of(It)}, {heal_registry, 2, Of, Body}])
     || It <- [A, B], Body <- [{started, [heal_cluster:node_of(A), Of]}, {ask, [], make_ref()}]],
    [refused(It, version) || It <- [A, B]],
    Pid = own(A, one),
    ?assertEqual([{one, Pid}], heal_cluster:one_part([A, B])),
    [?assertEqual(1, logged(It, "have version 2")) || It <- [A, B]],
    ?assertMatch([_ | _], [3 || {heal_registry, 3, _, _} <- heal_cluster:mail(Old, Mailbox)]),
    [heal_cluster:stop(It) || It <- Nodes].

%% Nodes that aren't in the setting are refused, also if they have this node in theirs.
some_nodes() ->
    Nodes = [A, B, C] = [heal_cluster:start(Letter, separate()) || Letter <- [a, b, c]],
    [heal_cluster:start_registry(It, Of, #{}) || {It, Of} <- [{A, [A, B]}, {B, [A, B, C]}, {C, any}]],
    heal_cluster:mesh(Nodes),
    [refused(It, nodes) || It <- [A, C]],
    OnA = own(A, one),
    heal_cluster:eventually(fun() -> heal_cluster:table(B) =:= [{one, OnA}] end),
    heal_cluster:eventually(fun() -> not lists:member(heal_cluster:node_of(C), maps:get(members, heal_cluster:status(A))) end),
    [heal_cluster:stop(It) || It <- Nodes].

%% Every term is a name, and no two are confused.
any_term(Nodes = [A, B, C]) ->
    Terms = [{db, 1}, {db, 1.0}, 7, [], <<>>, <<"a b">>, 'with space', #{a => 1}, binary:copy(<<"x">>, 33), [a, b], ["db"],
             [$a | b], <<1:3>>, self(), make_ref()],
    Pids = [{Term, own(It, Term)} || {Term, N} <- lists:zip(Terms, lists:seq(1, length(Terms))), It <- [lists:nth(N rem 3 + 1, Nodes)]],
    heal_cluster:eventually(fun() -> [call(It, count, []) || It <- Nodes] =:= [length(Terms) || _ <- Nodes] end),
    [?assertEqual([Pid || {_, Pid} <- Pids], [call(It, whereis_name, [Term]) || Term <- Terms]) || It <- Nodes],
    [?assertEqual(maps:from_keys(Terms, name), maps:from_keys(call(It, names, []), name)) || It <- Nodes],
    [?assertMatch({error, {30, _}}, call(B, register, [Term, pid_on(B), #{}])) || Term <- Terms],
    %% The text of a digest is a name too.
    Digest = heal_names:name({db, 1}),
    ?assertEqual(undefined, call(A, whereis_name, [Digest])),
    ?assertEqual({error, {same_digest, {db, 1}}}, call(A, register, [Digest, pid_on(A), #{}])),
    ?assertEqual(ok, call(C, unregister_name, [Digest])),
    ?assertEqual(proplists:get_value({db, 1}, Pids), call(C, whereis_name, [{db, 1}])),
    [?assertEqual(ok, call(C, unregister_name, [Term])) || Term <- Terms],
    ?assertEqual(ok, call(A, register, [Digest, pid_on(A), #{}])),
    ?assertEqual({error, {same_digest, Digest}}, call(A, register, [{db, 1}, pid_on(A), #{}])),
    heal_cluster:eventually(fun() -> [call(It, names, []) || It <- Nodes] =:= [[Digest], [Digest], [Digest]] end),
    heal_cluster:split_into([[A, B], [C]]),
    OnA = own(A, {pool, 1}),
    OnC = own(C, {pool, 1}),
    heal_cluster:mesh(Nodes),
    Table = heal_cluster:one_part(Nodes),
    [Loser] = [OnA, OnC] -- [proplists:get_value({pool, 1}, Table)],
    Of = case Loser of OnA -> A; OnC -> C end,
    heal_cluster:eventually(fun() -> heal_cluster:mail(Of, Loser) =:= [{global_name_conflict, {pool, 1}}] end).

%% A subscriber receives what the node learns that it subscribes to, also one on another node, until the two lose each other.
subscribed([A, B]) ->
    Subscriber = pid_on(A),
    Remote = pid_on(B),
    [?assertEqual(ok, call(A, subscribe, [Pid])) || Pid <- [Subscriber, Remote]],
    OnB = own(B, one),
    OnA = own(A, two),
    ok = call(B, unregister_name, [one]),
    heal_cluster:kill(A, OnA),
    Mail = fun() -> [Event || {heal_registry, Event} <- heal_cluster:mail(A, Subscriber)] end,
    Expected = [{registered, one, OnB}, {registered, two, OnA}, {unregistered, one, OnB}, {unregistered, two, OnA}],
    Receives = fun(Mailbox) -> fun() -> case lists:sort(Mailbox()) of Expected -> true; Other -> Other end end end,
    heal_cluster:eventually(Receives(Mail)),
    heal_cluster:eventually(Receives(fun() -> [Event || {heal_registry, Event} <- heal_cluster:mail(B, Remote)] end)),
    heal_cluster:split(A, B),
    [ClashA, ClashB] = [own(It, db) || It <- [A, B]],
    heal_cluster:connect(A, B),
    heal_cluster:one_part([A, B]),
    heal_cluster:eventually(fun() -> [Facts || {healed, Facts} <- Mail()] =/= [] end),
    ?assertMatch([#{clashes := 1, names := 1}], [Facts || {healed, Facts} <- Mail()]),
    Conflicts = [{Pid, Rival} || {conflict, db, Pid, Rival} <- Mail()],
    case call(A, whereis_name, [db]) of
        ClashA -> ?assertEqual([], Conflicts);
        ClashB -> heal_cluster:eventually(fun() -> lists:member({conflict, db, ClashA, ClashB}, Mail()) end)
    end,
    %% The version before had no process for a subscriber on another node.
    Monitor = heal_cluster:call(A, erlang, make_ref, []),
    Relayed = heal_cluster:call(A, heal_events, add, [Remote, #{Remote => Monitor}]),
    ?assertMatch(#{Remote := {_Relay, _}}, Relayed),
    ok = call(A, subscribe, [Remote]),
    OnA2 = own(A, four),
    heal_cluster:eventually(fun() -> lists:member({heal_registry, {registered, four, OnA2}}, heal_cluster:mail(B, Remote)) end),
    ok = call(A, unsubscribe, [Subscriber]),
    Count = length(Mail()),
    _ = own(A, three),
    ?assertEqual(Count, length(Mail())).

%% Several changes of a name that a node learns of together are an event each, in their order. Who hears of a registration finds it.
in_order(Nodes) ->
    #{primary := First} = heal_cluster:status(hd(Nodes)),
    {[Primary], [Other]} = lists:partition(fun(It) -> heal_cluster:node_of(It) =:= First end, Nodes),
    [P, Q] = [pid_on(Primary) || _ <- [1, 2]],
    Subscriber = pid_on(Other),
    Looker = heal_cluster:call(Other, erlang, spawn, [?MODULE, looks_up, [last, []]]),
    [ok = call(Other, subscribe, [Pid]) || Pid <- [Subscriber, Looker]],
    Edits = [{register, first, P}, {register, db, P}, {unregister, db}, {register, db, Q}, {unregister, db}, {register, last, Q}],
    ?assertEqual([ok, ok, ok, ok, ok, ok], heal_cluster:call(Primary, ?MODULE, at_once_here, [Edits])),
    Expected = [{registered, first, P}, {registered, db, P}, {unregistered, db, P}, {registered, db, Q}, {unregistered, db, Q},
                {registered, last, Q}],
    heal_cluster:eventually(fun() ->
        case [Event || {heal_registry, Event} <- heal_cluster:mail(Other, Subscriber)] of
            Expected -> true;
            Events -> Events
        end
    end),
    heal_cluster:eventually(fun() -> heal_cluster:mail(Other, Looker) =/= [] end),
    ?assertEqual([Q], heal_cluster:mail(Other, Looker)).

%% Makes these edits while the registry is suspended, so that it carries them out one right after the other.
at_once_here(Edits) ->
    ok = sys:suspend(heal_registry),
    Requests = [gen_server:send_request(heal_registry, {edit, edit(Edit)}) || Edit <- Edits],
    ok = sys:resume(heal_registry),
    [case gen_server:wait_response(Request, 10000) of {reply, {ok, _}} -> ok; {reply, Answer} -> Answer end || Request <- Requests].

edit({register, Name, Pid}) -> {adopt, heal_names:name(Name), Name, heal_names:options(#{}), Pid, node(Pid)};
edit({unregister, Name}) -> {unregister, heal_names:name(Name), any}.

%% Looks the name up at once when it hears that it is registered, and keeps what it finds for heal_cluster:mail/2.
looks_up(Name, Found) ->
    receive
        {heal_registry, {registered, Name, _}} -> looks_up(Name, [heal_registry:whereis_name(Name) | Found]);
        {heal_registry, _} -> looks_up(Name, Found);
        {'mail of', From, Reference} -> From ! {Reference, Found}, looks_up(Name, Found)
    end.

%% Every node learns who is in its part: of a node that joins, and of one that ends.
members(Nodes = [A, B, C]) ->
    heal_cluster:split_into([[A, B], [C]]),
    [heal_cluster:one_part(Side) || Side <- [[A, B], [C]]],
    Subscribers = [{It, Pid} || It <- [A, B], Pid <- [pid_on(It)]],
    [ok = call(It, subscribe, [Pid]) || {It, Pid} <- Subscribers],
    Are = fun(Expected) ->
        Names = lists:sort([heal_cluster:node_of(It) || It <- Expected]),
        heal_cluster:eventually(fun() ->
            case [last_part(It, Pid) || {It, Pid} <- Subscribers] of
                [Names, Names] -> true;
                Others -> Others
            end
        end)
    end,
    heal_cluster:mesh(Nodes),
    Are(Nodes),
    heal_cluster:kill_node(C),
    Are([A, B]).

last_part(It, Pid) ->
    lists:last([none | [Members || {heal_registry, {part, _, Members}} <- heal_cluster:mail(It, Pid)]]).
