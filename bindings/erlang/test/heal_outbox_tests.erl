%% What heal_registry sends for edits: which bodies wait, in which order they leave, and which go in one message.
-module(heal_outbox_tests).

-include_lib("eunit/include/eunit.hrl").

-export([counted/2, earlier/2, at_once/1, longest/0]).

-define(REGISTER, {heal_registry, register}).
-define(VIEW, {{a, 1}, 1}).
-define(CALLERS, 20).

%% ---- Without nodes ----

entries(Operation, Edits) ->
    {edit, {?VIEW, Operation}, Edits, none, ok}.

post(Nodes, Operation, Edit, Outbox) ->
    heal_outbox:post(Nodes, entries(Operation, [Edit]), Outbox).

%% An outbox whose timer runs, and which has sent its first entry.
busy(Nodes) ->
    {true, First} = post(Nodes, 1, one, heal_outbox:new()),
    {_, Busy} = heal_outbox:drain(First),
    Busy.

%% The first entry after a pause leaves at once. Those that follow wait for the timer, which runs as long as some do.
entries_of_a_moment_test() ->
    {true, First} = post([b, c], 1, one, heal_outbox:new()),
    ?assertMatch({wait, _}, heal_outbox:turn(First)),
    {Sent, Busy} = heal_outbox:drain(First),
    ?assertEqual([{b, entries(1, [one])}, {c, entries(1, [one])}], Sent),
    {false, Two} = post([b, c], 2, two, Busy),
    {false, Five} = heal_outbox:post([b, c], entries(3, [three, four, five]), Two),
    ?assertEqual(drained, heal_outbox:turn(Five)),
    {true, Expired} = heal_outbox:expired(Five),
    {Later, Rest} = heal_outbox:drain(Expired),
    ?assertEqual([{b, entries(2, [two, three, four, five])}, {c, entries(2, [two, three, four, five])}], Later),
    {false, Quiet} = heal_outbox:expired(Rest),
    ?assertEqual(heal_outbox:new(), Quiet).

%% What is sent to a node goes after the entries for it, whether it waits or not. Other nodes' entries wait on.
order_test() ->
    {false, Two} = post([b, c], 2, two, busy([b, c])),
    {[], Put} = heal_outbox:put(b, answer, Two),
    ?assertEqual({[{b, entries(2, [two])}, {b, answer}], Put}, sent(b, Put)),
    {Flushed, Rest} = heal_outbox:flush(b, Two),
    ?assertEqual([{b, entries(2, [two])}], Flushed),
    {false, Three} = post([b, c], 3, three, Rest),
    ?assertMatch({[{b, {edit, {?VIEW, 3}, [three], none, ok}}], _}, heal_outbox:flush(b, Three)),
    ?assertMatch({[{c, {edit, {?VIEW, 2}, [two, three], none, ok}}], _}, heal_outbox:flush(c, Three)),
    ?assertMatch({[], _}, heal_outbox:flush(c, heal_outbox:forget(c, Three))).

sent(Node, Outbox) ->
    {Bodies, _} = heal_outbox:drain(Outbox),
    {[Sent || Sent = {To, _} <- Bodies, To =:= Node], Outbox}.

%% Entries that don't follow each other, as those of another view, go in messages of their own.
gaps_test() ->
    {false, Two} = post([b], 2, two, busy([b])),
    {false, Four} = post([b], 4, four, Two),
    {false, Next} = heal_outbox:post([b], {edit, {{{a, 1}, 2}, 5}, [five], none, ok}, Four),
    {Bodies, _} = heal_outbox:flush(b, Next),
    ?assertEqual([{b, entries(2, [two])}, {b, entries(4, [four])}, {b, {edit, {{{a, 1}, 2}, 5}, [five], none, ok}}], Bodies).

%% Bodies for a node go in one message if it takes that, but no more than a hundred.
bundles_test() ->
    Put = fun(Body, {Sent, Outbox}) -> {Now, Next} = heal_outbox:put(b, Body, Outbox), {Sent ++ Now, Next} end,
    Three = fun(Outbox) -> element(1, heal_outbox:drain(element(2, lists:foldl(Put, {[], Outbox}, [1, 2, 3])))) end,
    Bundling = heal_outbox:bundles(b, true, heal_outbox:new()),
    ?assertEqual([{b, 1}, {b, 2}, {b, 3}], Three(heal_outbox:new())),
    ?assertEqual([{b, {bundle, [1, 2, 3]}}], Three(Bundling)),
    ?assertEqual([{b, 1}, {b, 2}, {b, 3}], Three(heal_outbox:bundles(b, false, Bundling))),
    ?assertEqual([{b, 1}, {b, 2}, {b, 3}], Three(heal_outbox:forget(b, Bundling))),
    Hundred = lists:seq(1, 100),
    ?assertEqual({[{b, {bundle, Hundred}}], Bundling}, lists:foldl(Put, {[], Bundling}, Hundred)).

%% Bodies wait while the registry handles some messages, and no longer.
turns_test() ->
    {[], Outbox} = heal_outbox:put(b, 1, heal_outbox:new()),
    Turn = fun Turn(Count, Of) -> case heal_outbox:turn(Of) of {wait, Next} -> Turn(Count + 1, Next); now -> {Count, Of} end end,
    {16, Last} = Turn(0, Outbox),
    ?assertEqual({[{b, 1}], heal_outbox:new()}, heal_outbox:drain(Last)).

%% ---- With nodes ----

nodes_test_() ->
    {inparallel, 2, [heal_cluster:pair(#{send => fun ?MODULE:counted/2}, fun together/2),
                     heal_cluster:pair(#{send => fun ?MODULE:earlier/2}, fun one_by_one/2)]}.

%% The requests of callers that a registry finds together go in few messages: a message has those of 16 turns.
together(A, B) ->
    Names = call_at_once(A, B),
    ?assert(lists:max([heal_cluster:call(It, ?MODULE, longest, []) || It <- heal_cluster:all([A, B])]) >= ?CALLERS div 2),
    ?assertEqual(Names, heal_cluster:alike(A, B)).

%% Nodes of an earlier version don't announce that they take several bodies in one message.
one_by_one(A, B) ->
    Names = call_at_once(A, B),
    ?assertEqual([0], lists:usort([heal_cluster:call(It, ?MODULE, longest, []) || It <- heal_cluster:all([A, B])])),
    ?assertEqual(Names, heal_cluster:alike(A, B)).

%% All callers of a node that isn't the primary have called when its registry goes on.
call_at_once(A, B) ->
    #{primary := Primary} = heal_cluster:status(A),
    [Other | _] = [It || It <- [A, B], heal_cluster:node_of(It) =/= Primary],
    heal_cluster:call(Other, ?MODULE, at_once, [?CALLERS]).

at_once(Count) ->
    ok = sys:suspend(heal_registry),
    Self = self(),
    Call = fun(N) -> Self ! {self(), heal_registry:register(N, self(), #{})}, heal_cluster:serve([]) end,
    Pids = [spawn(fun() -> Call(N) end) || N <- lists:seq(1, Count)],
    heal_cluster:eventually(fun() -> element(2, process_info(whereis(heal_registry), message_queue_len)) >= Count end),
    ok = sys:resume(heal_registry),
    [receive {Pid, Answer} -> ?assertEqual(ok, Answer) end || Pid <- Pids],
    lists:zip(lists:seq(1, Count), Pids).

%% Notes how many bodies a message has that has several.
counted(Node, Message = {_, _, _, {bundle, Bodies}}) ->
    persistent_term:put(?MODULE, max(length(Bodies), longest())),
    heal_wire:send(Node, Message);
counted(Node, Message) ->
    heal_wire:send(Node, Message).

longest() ->
    persistent_term:get(?MODULE, 0).

%% The registry announces itself as an earlier version does.
earlier(Node, {Registry, Version, From, {here, Here}}) ->
    heal_wire:send(Node, {Registry, Version, From, {here, maps:remove(bundles, Here)}});
earlier(Node, Message) ->
    counted(Node, Message).
