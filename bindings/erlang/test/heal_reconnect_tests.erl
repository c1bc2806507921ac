%% @private How often a registry tries to connect nodes that it has lost.
-module(heal_reconnect_tests).

-include_lib("eunit/include/eunit.hrl").

-define(LOST, 'lost@nowhere.invalid').
-define(HOUR, 360).
-define(WEEK, 60480).

%% A node that isn't in the setting is tried at each interval for an hour, then every ten minutes, and forgotten after a week.
any_test_() ->
    {timeout, 120, fun() ->
        Tried = tried(?WEEK + ?HOUR, lost(any)),
        ?assertEqual(lists:seq(1, ?HOUR), [N || N <- Tried, N =< ?HOUR]),
        Later = [N || N <- Tried, N > ?HOUR],
        ?assert(lists:max(gaps([?HOUR | Later])) =< 60),
        ?assertEqual((?WEEK - ?HOUR) div 60, length(Later)),
        ?assert(lists:last(Tried) =< ?WEEK),
        ?assert(lists:last(Tried) > ?WEEK - 60)
    end}.

%% It is forgotten then.
forgotten_test_() ->
    {timeout, 120, fun() ->
        Interval = fun(N, {Sum, State}) ->
            {_, Next} = interval(N, {[], State}),
            {Sum ++ [{N, Node} || Node <- heal_reconnect:forgotten(State, Next)], Next}
        end,
        ?assertMatch({[{?WEEK, ?LOST}], _}, lists:foldl(Interval, {[], lost(any)}, lists:seq(1, ?WEEK + 1)))
    end}.

%% A node of the setting is tried for ever.
list_test_() ->
    {timeout, 120, fun() ->
        ?assertEqual(lists:seq(1, ?WEEK + 1), tried(?WEEK + 1, lost([node(), ?LOST])))
    end}.

%% A node that is back isn't tried.
back_test() ->
    ?assertEqual([], tried(3, heal_reconnect:up(?LOST, lost(any)))).

%% No node is tried without an interval.
never_test() ->
    State = heal_reconnect:down(?LOST, true, heal_reconnect:start(any, [?LOST], #{reconnect_interval => never})),
    ?assertEqual([], tried(3, State)).

%% A node that the registry hasn't met, such as a remote shell, is tried only if the setting names it.
unmet_test() ->
    ?assertEqual([], tried(3, lost(any, false))),
    ?assertEqual([1, 2, 3], tried(3, lost([node(), ?LOST], false))).

%% A registry that starts again tries the nodes that it has met and isn't connected with. Nodes of the setting are tried for ever.
met_test() ->
    ?assertEqual([1, 2, 3], tried(3, started(any, [?LOST, node()]))),
    ?assertEqual([1, 2, 3], tried(3, started([node(), ?LOST], [?LOST]))),
    ?assertEqual(lists:seq(1, ?HOUR + 1), tried(?HOUR + 1, started([node(), ?LOST], [?LOST]))).

lost(Nodes) ->
    lost(Nodes, true).

lost(Nodes, IsMet) ->
    heal_reconnect:down(?LOST, IsMet, started(Nodes, [])).

started(Nodes, Met) ->
    heal_reconnect:start(Nodes, Met, #{reconnect_interval => 1 bsl 31}).

%% Returns the intervals, up to this one, at which the node is tried.
tried(Intervals, State) ->
    {Tried, _} = lists:foldl(fun interval/2, {[], State}, lists:seq(1, Intervals)),
    lists:reverse(Tried).

interval(N, {Tried, State}) ->
    case heal_reconnect:attempt(heal_reconnect:expired(State)) of
        {[], Next} -> {Tried, Next};
        {[?LOST], Next} -> receive {'DOWN', Monitor, process, _, _} -> {[N | Tried], over(Monitor, Next)} end
    end.

over(Monitor, State) ->
    {?LOST, Next} = heal_reconnect:attempted(Monitor, State),
    Next.

gaps(Numbers) ->
    lists:zipwith(fun(N, M) -> M - N end, lists:droplast(Numbers), tl(Numbers)).
