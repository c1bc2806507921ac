%% Short traces of heal_part that the simulator has found to break a promise, without processes.
-module(heal_traces_tests).

-include_lib("eunit/include/eunit.hrl").
-include("../src/heal_part.hrl").

-define(NAME, <<"n1">>).

settings(Node) ->
    #{life => {Node, 1}, number => erlang:phash2(Node, 1000), scope => s, nodes => any, names => 10, world => heal_sim_world, now => 1,
      connected => [], seq => 0, edit_timeout => 1000, exchange_timeout => 2000}.

row(Node, Serial, Home, Weight) ->
    Registration = #{owner => {erlang:phash2(Node, 1000), Serial}, stamp => 1, weight => Weight, extra => <<0:128>>, resolver => notify},
    heal_row:new(?NAME, Registration, {pid, Node, Serial}, ?NAME, {Home, 1}).

half(Row) ->
    #half{names = #{?NAME => Row}}.

%% A cluster: its parts, and what each of them did last. Messages arrive in the order in which they were sent, but for those that `Lost'
%% chooses.
start(Nodes) ->
    heal_sim_world:start(none),
    put(done, []),
    put(tables, #{}),
    maps:from_list([{Node, element(2, heal_part:new(maps:merge(settings(Node), More)))} || {Node, More} <- Nodes]).

connect(One, Other, Lost, Parts) ->
    event(One, {up, Other, visible}, Lost, event(Other, {up, One, visible}, Lost, Parts)).

event(Node, Event, Lost, Parts) ->
    events([{Node, Event}], Lost, Parts).

events([], _Lost, Parts) ->
    Parts;
events([{Node, Event} | Later], Lost, Parts) ->
    {Actions, Next} = handled(Node, Event, maps:get(Node, Parts)),
    Bodies = lists:append([bodies(Action) || Action <- Actions]),
    Sent = [{To, {message, Node, Body}} || {To, Body} <- Bodies, is_map_key(To, Parts), not Lost(Node, To, Body)],
    events(Later ++ Sent, Lost, Parts#{Node := Next}).

bodies({send, To, Body}) -> [{To, Body}];
bodies({again, To, Bodies}) -> [{To, Body} || Body <- Bodies];
bodies({post, Nodes, Entries}) -> [{To, Entries} || To <- Nodes];
bodies(_Other) -> [].

%% Handles an event at this time. Nothing that it sends arrives.
event_at(Now, Node, Event, Parts) ->
    Parts#{Node := element(2, handled(Node, Event, Now, maps:get(Node, Parts)))}.

%% Handles an event and the steps that follow it.
handled(Node, Event, Part) ->
    handled(Node, Event, 2, Part).

handled(Node, Event, Now, Part) ->
    {Actions, Next} = heal_part:handle(Event, Now, Part),
    put(done, [{Node, Action} || Action <- Actions] ++ get(done)),
    one_table_at_a_position(element(1, heal_part:position(Next)), (heal_state:half(Next))#half.names),
    lists:foldl(fun(Step, {Before, Sum}) ->
        {More, Last} = handled(Node, Step, Now, Sum),
        {Before ++ More, Last}
    end, {Actions, Next}, [{continue, Step} || {Kind, Step} <- Actions, Kind =:= continue orelse Kind =:= later]).

one_table_at_a_position(At, Names) ->
    ?assertEqual(Names, maps:get(At, get(tables), Names)),
    put(tables, (get(tables))#{At => Names}).

none_lost(_From, _To, _Body) -> false.

%% No node begins an exchange.
unasked(_From, _To, Body) -> element(1, Body) =:= ask.

done(Node) ->
    [Action || {Of, Action} <- get(done), Of =:= Node].

position(Node, Parts) ->
    element(1, heal_part:position(maps:get(Node, Parts))).

%% A primary that has dropped a member, which doesn't know so, sends it what it has already: the member joins again.
joins_again_test() ->
    Joined = connect(a, b, fun none_lost/3, start([{a, #{}}, {b, #{}}])),
    ?assertEqual(position(a, Joined), position(b, Joined)),
    #{a := A} = Back = event(a, {up, b, visible}, fun none_lost/3, event(a, {down, b}, fun none_lost/3, Joined)),
    ?assertMatch(#part{members = #{b := #member{is_joined = true}}, settle_by = none}, A),
    _ = event(b, {call, 1, {unregister, ?NAME, any}}, fun none_lost/3, Back),
    ?assertEqual([{reply, 1, {error, 31}}], [Reply || Reply = {reply, _, _} <- done(b)]).

%% A node handles an event while its connection to another one is full.
refuse(Node, Event, To, Parts) ->
    {Actions, _} = heal_part:handle(Event, 2, maps:get(Node, Parts)),
    Bodies = [Body || Action <- Actions, {Of, Body} <- bodies(Action), Of =:= To],
    Lost = fun(From, Of, _) -> {From, Of} =:= {Node, To} end,
    event(Node, {refused, To, lists:reverse(Bodies)}, fun none_lost/3, event(Node, Event, Lost, Parts)).

kinds(Node, To) ->
    [element(1, Body) || {send, Of, Body} <- done(Node), Of =:= To].

upload(N) ->
    {call, N, {upload, <<N:256>>, <<N>>}}.

%% A connection takes no entries, and later takes messages again: the member gets them.
waiting_entries_test() ->
    Joined = connect(a, b, fun none_lost/3, start([{a, #{}}, {b, #{}}])),
    put(done, []),
    Refused = refuse(a, upload(2), b, refuse(a, upload(1), b, Joined)),
    ?assertNotEqual(position(a, Refused), position(b, Refused)),
    Drained = event(a, {drained, b}, fun none_lost/3, Refused),
    ?assertEqual(position(a, Drained), position(b, Drained)),
    ?assertEqual([here], kinds(a, b)).

%% It takes no snapshot, or more entries than wait for it: the member gets a snapshot after a pause, and what follows. No snapshot is made
%% before.
full_connection_test() ->
    Joined = connect(a, b, fun none_lost/3, start([{a, #{}}, {b, #{}}])),
    Part = element(2, heal_part:handle({refused, b, [{snapshot, none}]}, 3, maps:get(a, Joined))),
    Refused = event(a, upload(1), fun none_lost/3, Joined#{a := Part}),
    ?assertNotEqual(position(a, Refused), position(b, Refused)),
    put(done, []),
    Drained = event(a, {drained, b}, fun none_lost/3, event(a, tick, fun none_lost/3, event(b, tick, fun none_lost/3, Refused))),
    ?assertEqual([], [snapshot || snapshot <- kinds(a, b)]),
    Rested = event(a, {rested, b}, fun none_lost/3, Drained),
    ?assertEqual([snapshot], [snapshot || snapshot <- kinds(a, b)]),
    ?assertEqual(position(a, Rested), position(b, Rested)),
    %% It is a member like any other then.
    Last = event(a, upload(2), fun none_lost/3, event(a, {rested, b}, fun none_lost/3, Rested)),
    ?assertEqual(position(a, Last), position(b, Last)),
    Entry = {edit, position(a, Last), lists:duplicate(5001, {unregister, ?NAME}), none, ok},
    {_, Full} = heal_part:handle({refused, b, [Entry, Entry]}, 3, maps:get(a, Last)),
    ?assertMatch(#part{members = #{b := #member{is_lagging = true}}, full = #{b := {refusing, 0, []}}}, Full).

%% A connection takes no requests, and later takes messages again: the primary gets them in their order.
waiting_requests_test() ->
    Joined = connect(a, b, fun none_lost/3, start([{a, #{}}, {b, #{}}])),
    Refused = refuse(b, upload(2), a, refuse(b, upload(1), a, Joined)),
    ?assertEqual(position(a, Joined), position(b, Refused)),
    Drained = event(b, {drained, a}, fun none_lost/3, Refused),
    ?assertEqual(element(1, position(a, Joined)), element(1, position(b, Drained))),
    ?assertEqual([{reply, N, {ok, <<N:256>>}} || N <- [2, 1]], [Reply || Reply = {reply, _, _} <- done(b)]).

%% A member whose edits wait for half of their time gives its primary up: it makes them itself, and the two heal. Requests of an earlier view
%% are dropped.
primary_takes_no_requests_test() ->
    Joined = connect(a, b, fun none_lost/3, start([{a, #{}}, {b, #{}}])),
    View = element(1, position(b, Joined)),
    Handle = fun(Event, Now, Part) -> element(2, heal_part:handle(Event, Now, Part)) end,
    IsLeading = fun(Part) -> element(1, element(1, heal_part:position(Part))) =/= View end,
    Late = refuse(b, upload(1), a, Joined),
    ?assertNot(IsLeading(Handle(tick, 501, maps:get(b, Late)))),
    Alone = event_at(502, b, tick, Late),
    ?assert(IsLeading(maps:get(b, Alone))),
    ?assertEqual([{reply, 1, {ok, <<1:256>>}}], [Reply || Reply = {reply, _, _} <- done(b)]),
    Healed = event(b, {drained, a}, fun none_lost/3, Alone),
    ?assertEqual(position(a, Healed), position(b, Healed)),
    %% The same if the connection has room for a moment, and refuses the request again, which the node doesn't know yet.
    Again = event(b, {drained, a}, fun(From, _, _) -> From =:= b end, Late),
    ?assert(IsLeading(Handle(tick, 502, maps:get(b, Again)))),
    Earlier = {refused, a, [{request, {{a, 1}, 1}, 1, {unregister, ?NAME, any}}]},
    ?assertMatch(#part{waiting = []}, Handle(Earlier, 3, maps:get(b, Joined))).

%% A full connection refuses that a node has followed its primary, and then a request. Once it has room, the primary hears first that the node
%% has followed: it takes no requests of others.
joins_before_its_request_test() ->
    Pair = connect(a, b, fun none_lost/3, start([{a, #{}}, {b, #{}}])),
    Again = event(a, {up, b, visible}, fun(b, a, {finished, _, _, _, _}) -> true; (_, _, _) -> false end,
                  event(a, {down, b}, fun none_lost/3, Pair)),
    ?assertMatch(#{a := #part{members = #{b := #member{is_joined = false}}}}, Again),
    Refused = event(b, {refused, a, [{finished, 1, position(b, Again), 0, []}]}, fun none_lost/3, Again),
    Drained = event(b, {drained, a}, fun none_lost/3, event(b, upload(1), fun none_lost/3, Refused)),
    ?assertMatch(#{a := #part{members = #{b := #member{is_joined = true}}}}, Drained),
    ?assertEqual([{reply, 1, {ok, <<1:256>>}}], [Reply || Reply = {reply, _, _} <- done(b)]).

%% An announcement that a full connection refuses is made good once the connection takes messages again, so that all nodes know who is in
%% their part.
refused_announcement_test() ->
    Members = fun(Node, Parts) -> maps:get(members, heal_part:status(maps:get(Node, Parts))) end,
    Pair = connect(c, d, fun none_lost/3, start([{a, #{}}, {c, #{}}, {d, #{}}])),
    Linked = connect(a, d, fun none_lost/3, Pair),
    ?assertEqual([c, d], Members(d, Linked)),
    Deaf = fun(c, d, {here, #{is_settled := false}}) -> true; (_, _, _) -> false end,
    Refused = event(c, {refused, d, [{here, #{}}]}, fun none_lost/3, connect(a, c, Deaf, Linked)),
    ?assertEqual(position(a, Refused), position(d, Refused)),
    ?assertNotEqual([a, c, d], Members(d, Refused)),
    ?assertEqual([a, c, d], Members(d, event(c, {drained, d}, fun none_lost/3, Refused))).

%% A member leaves: the others know so at once.
members_change_test() ->
    Pair = connect(a, b, fun none_lost/3, start([{a, #{}}, {b, #{}}, {c, #{}}])),
    All = connect(b, c, fun none_lost/3, connect(a, c, fun none_lost/3, Pair)),
    Members = fun(Parts) -> maps:get(members, heal_part:status(maps:get(b, Parts))) end,
    ?assertEqual([a, b, c], Members(All)),
    ?assertEqual([a, b], Members(event(a, {down, c}, fun none_lost/3, All))).

%% A query comes before the announcement that its node leads a part, which a full connection has refused. It is declined, and the node
%% queries again.
stale_query_test() ->
    #{a := A, b := B} = Parts = connect(a, b, fun unasked/3, start([{a, #{}}, {b, #{}}])),
    #part{heal = {asking, #asking{reference = Reference}}} = A,
    #part{peers = Peers = #{a := Known}} = B,
    put(done, []),
    Healed = event(b, {message, a, {ask, Reference, [{{a, 1}, 1}]}}, fun none_lost/3,
                   Parts#{b := B#part{peers = Peers#{a := Known#peer{at = {{{c, 1}, 1}, 0}}}}}),
    ?assert(lists:member(busy, kinds(b, a))),
    ?assertEqual(position(a, Healed), position(b, Healed)).

%% A query finds no registry. The node is queried again when its registry announces that it has started.
started_registry_test() ->
    Asking = connect(a, b, fun unasked/3, start([{a, #{}}, {b, #{}}])),
    {Actions, Started} = heal_part:new((settings(b))#{connected => [{a, visible}], seq => 100}),
    Healed = events([{a, {message, b, Body}} || {send, a, Body} <- Actions], fun none_lost/3, Asking#{b := Started}),
    ?assertEqual(position(a, Healed), position(b, Healed)).

%% A node follows this view and is no member, and its connection is full. Once it has room it gets what differs, or a snapshot after a pause.
full_connection_of_no_member_test() ->
    Joined = connect(a, b, fun none_lost/3, start([{a, #{}}, {b, #{}}])),
    ?assertEqual({[difference], [difference]}, full_connection_of_no_member(Joined)),
    %% It lacks an upload, so that it can't use what differs.
    ?assertEqual({[], [snapshot]}, full_connection_of_no_member(event(a, upload(1), fun(a, b, _) -> true; (_, _, _) -> false end, Joined))).

%% Returns what a sends b for it to follow before the pause has passed, and in all.
full_connection_of_no_member(Parts = #{a := Part}) ->
    Full = Parts#{a := Part#part{members = #{}, full = #{b => {refusing, 0, []}}}},
    put(done, []),
    Refused = event(a, {refused, b, [{snapshot, none}]}, fun none_lost/3, Full),
    Drained = event(a, {drained, b}, fun none_lost/3, event(a, tick, fun none_lost/3, Refused)),
    Before = begun(a, b),
    Rested = event(a, {rested, b}, fun none_lost/3, Drained),
    ?assertMatch(#part{members = #{b := #member{is_joined = true}}}, maps:get(a, Rested)),
    ?assertEqual(position(a, Rested), position(b, Rested)),
    {Before, begun(a, b)}.

%% What begins the view that an exchange has started is lost. The member hears of the view, and wants a snapshot.
missed_snapshot_test() ->
    Pair = connect(c, d, fun none_lost/3, start([{a, #{}}, {c, #{}}, {d, #{}}])),
    Linked = connect(a, d, fun none_lost/3, Pair),
    put(done, []),
    Healed = connect(a, c, fun(c, d, {difference, _}) -> true; (_, _, _) -> false end, Linked),
    ?assertEqual([snapshot, difference], begun(c, d)),
    ?assertEqual(position(a, Healed), position(d, Healed)).

%% What one node has sent another for it to follow, the latest first.
begun(Node, To) ->
    [Kind || Kind <- kinds(Node, To), Kind =:= snapshot orelse Kind =:= difference].

%% A node that has lost its primary waits for the snapshot of a view that has it as a member, until the primary of that view announces it
%% without the node.
dropped_while_it_waits_test() ->
    Linked = connect(b, d, fun none_lost/3, connect(a, d, fun none_lost/3, start([{a, #{}}, {b, #{}}, {d, #{}}]))),
    {View, _} = At = {{{b, 1}, 5}, 0},
    Announced = fun(Of, Later, Members, Parts) ->
        Here = #{seq := Seq} = hd([Here || {send, d, {here, Here}} <- done(Of)]),
        event_at(2, d, {message, Of, {here, Here#{seq := Seq + Later, at := At, members := Members}}}, Parts)
    end,
    Moved = Announced(a, 1, [], Announced(b, 1, [a, d], Linked)),
    ?assertEqual([{send, b, {want, View}}], [Sent || Sent = {send, b, {want, _}} <- done(d)]),
    Waits = event_at(2, d, {down, a}, Moved),
    ?assertMatch({{{a, 1}, _}, _}, position(d, Waits)),
    ?assertMatch({{{d, 1}, _}, _}, position(d, Announced(b, 2, [a], Waits))).

%% The larger part leads, and a member that has what its primary had gets what differs. Of two parts alike the smaller node leads, and the
%% members of the other one get snapshots.
larger_part_leads_test() ->
    Nodes = start([{Node, #{}} || Node <- [a, b, c, d, e]]),
    Pair = connect(d, e, fun none_lost/3, connect(b, c, fun none_lost/3, Nodes)),
    Linked = connect(a, c, fun none_lost/3, Pair),
    put(done, []),
    Three = connect(a, b, fun none_lost/3, Linked),
    ?assertMatch({{{b, 1}, _}, _}, position(a, Three)),
    ?assertEqual({[], [difference]}, {begun(b, a), begun(b, c)}),
    Meshed = lists:foldl(fun({One, Other}, Parts) -> connect(One, Other, fun none_lost/3, Parts) end, Pair,
                         [{b, e}, {c, d}, {c, e}]),
    put(done, []),
    Four = connect(b, d, fun none_lost/3, Meshed),
    ?assertMatch({{{b, 1}, _}, _}, position(e, Four)),
    ?assertEqual({[difference], [], [snapshot]}, {begun(b, c), begun(b, d), begun(b, e)}),
    ?assertEqual([position(b, Four)], lists:usort([position(Node, Four) || Node <- [b, c, d, e]])).

%% A connection was full a moment ago: what differs goes at once, and a snapshot after a pause.
rested_connection_test() ->
    #{b := Part} = Pair = connect(b, c, fun none_lost/3, start([{a, #{}}, {b, #{}}, {c, #{}}])),
    Linked = connect(a, c, fun none_lost/3, Pair#{b := Part#part{full = #{c => resting}}}),
    put(done, []),
    Three = connect(a, b, fun none_lost/3, Linked),
    ?assertEqual([difference], begun(b, c)),
    ?assertEqual(position(b, Three), position(c, Three)).

%% A member that has missed an upload can't use what differs. It waits for a snapshot, and doesn't lead meanwhile, though its primary is gone.
missed_entry_test() ->
    Three = joined_three(),
    Missed = event(a, upload(1), fun(a, c, _) -> true; (_, _, _) -> false end, Three),
    ?assertNotEqual(position(b, Missed), position(c, Missed)),
    put(done, []),
    Left = event(b, {down, a}, fun none_lost/3, event(c, {down, a}, fun none_lost/3, Missed)),
    ?assertEqual([snapshot, difference], begun(b, c)),
    ?assertMatch({{{b, 1}, 2}, _}, position(b, Left)),
    ?assertEqual(position(b, Left), position(c, Left)).

%% The primary is gone, and one of the nodes that are left has an entry that the other one lacks. A node that has it goes back, and its home
%% restores what it has registered. A node that lacks it gets what differs once more.
last_entries_test() ->
    ?assertEqual([difference], last_entry(c, b)),
    ?assertEqual([difference, difference], last_entry(b, c)).

%% Returns what b sends c for it to follow. The last name is of a node that has its entry, and the other one lacks it.
last_entry(Node, Lacking) ->
    Registered = lists:foldl(fun(N, Parts) -> event(b, registering(N, b), fun none_lost/3, Parts) end, joined_three(), lists:seq(1, 6)),
    Missed = event(Node, registering(7, Node), fun(a, To, _) -> To =:= Lacking; (_, _, _) -> false end, Registered),
    ?assertEqual(1, operation(Node, Missed) - operation(Lacking, Missed)),
    put(done, []),
    Left = event(b, {down, a}, fun none_lost/3, event(c, {down, a}, fun none_lost/3, Missed)),
    ?assertMatch({{{b, 1}, 2}, _}, position(b, Left)),
    ?assertEqual(position(b, Left), position(c, Left)),
    ?assertEqual([{pid, Node, 7}], [Pid || {<<"m7">>, #row{pid = Pid}} <- maps:to_list(names(c, Left))]),
    ?assertEqual(7, map_size(names(b, Left))),
    begun(b, c).

%% A member that lacks the latest entries of its view gets what they changed, and a snapshot if one of them is an upload.
lacking_member_test() ->
    ?assertEqual([difference], lacking_member(registering(7, a))),
    ?assertEqual([snapshot], lacking_member(upload(1))).

%% Returns what a sends its member b, which has missed an entry and learns so by the next one.
lacking_member(Missed) ->
    Registered = lists:foldl(fun(N, Parts) -> event(b, registering(N, b), fun none_lost/3, Parts) end,
                             connect(a, b, fun none_lost/3, start([{a, #{}}, {b, #{}}])), lists:seq(1, 6)),
    Announced = event(b, tick, fun none_lost/3, Registered),
    Lacking = event(a, Missed, fun(a, b, _) -> true; (_, _, _) -> false end, Announced),
    ?assertEqual(1, operation(a, Lacking) - operation(b, Lacking)),
    put(done, []),
    Next = event(a, registering(8, a), fun none_lost/3, Lacking),
    ?assertEqual(position(a, Next), position(b, Next)),
    ?assertEqual(names(a, Next), names(b, Next)),
    %% It is a member like any other then.
    Last = event(a, registering(9, a), fun none_lost/3, Next),
    ?assertEqual(position(a, Last), position(b, Last)),
    begun(a, b).

registering(N, Node) ->
    Name = <<"m", ($0 + N)>>,
    {call, N, {adopt, Name, Name, #{stamp => 1, weight => 0, extra => <<0:128>>, resolver => notify}, {pid, Node, N}, Node}}.

operation(Node, Parts) ->
    element(2, position(Node, Parts)).

names(Node, Parts) ->
    (heal_state:half(maps:get(Node, Parts)))#half.names.

%% A full connection refuses that the member wants a snapshot. It wants it once there is room.
refused_want_test() ->
    Missed = event(a, upload(1), fun(a, c, _) -> true; (_, _, _) -> false end, joined_three()),
    Deaf = fun(c, b, {want, _}) -> true; (b, c, {here, _}) -> true; (_, _, _) -> false end,
    Left = event(b, {down, a}, Deaf, event(c, {down, a}, Deaf, Missed)),
    Refused = event(c, {refused, b, [{want, {{b, 1}, 2}}]}, fun none_lost/3, Left),
    ?assertNotEqual(position(b, Refused), position(c, Refused)),
    Drained = event(c, {drained, b}, fun none_lost/3, Refused),
    ?assertEqual(position(b, Drained), position(c, Drained)).

%% The registry of a node fails while the snapshot of a new primary is on its way to it. The next one gets another snapshot when it starts.
starts_before_its_snapshot_test() ->
    Three = #{c := #part{replica = Replica}} = joined_three(),
    Left = event(a, {down, b}, fun none_lost/3, event(b, {down, a}, fun(b, c, _) -> true; (_, _, _) -> false end, Three)),
    ?assertMatch({{{b, 1}, 2}, _}, position(b, Left)),
    Started = started(c, #{replica => Replica, connected => [{a, visible}, {b, visible}]}, Left),
    ?assertEqual(position(b, Started), position(c, Started)),
    ?assertMatch(#{b := #part{settle_by = none}}, Started).

%% Starts the registry of a node again with these settings. The nodes hear what it sends.
started(Node, More, Parts) ->
    {Actions, Part} = heal_part:new(maps:merge((settings(Node))#{seq => 100}, More)),
    events([{To, {message, Node, Body}} || {send, To, Body} <- Actions], fun none_lost/3, Parts#{Node := Part}).

%% The registry of a node that leads a part without edits fails before it follows the merge: the leader doesn't wait for it, and the two
%% exchange again.
starts_before_it_follows_test() ->
    Left = connect(a, b, fun(a, b, {finished, _, _}) -> true; (_, _, _) -> false end, start([{a, #{}}, {b, #{}}])),
    ?assertMatch([{{{a, 1}, 2}, _}, {{{b, 1}, 1}, _}], [position(Node, Left) || Node <- [a, b]]),
    Started = started(b, #{connected => [{a, visible}]}, Left),
    ?assertEqual(position(a, Started), position(b, Started)).

%% A registry fails after it has sent what begins its view, and before it has kept its position. It leads no view of that number again.
fails_before_its_position_test() ->
    Three = #{b := Part} = joined_three(),
    {Actions, Led} = heal_part:handle({down, a}, 2, Part),
    {Sent, _} = heal_part:handle({continue, welcome}, 2, Led),
    ?assertMatch([_], [At || {send, c, {difference, {{_, _, At = {{{b, 1}, 2}, _}, _, _, _, _}, _}}} <- Sent]),
    ok = heal_table:create(),
    ok = heal_table:keep_position(position(b, Three), 1, 0),
    IsBefore = fun(Action) -> element(1, Action) =/= send end,
    [ok = heal_table:keep(Key, Value) || {keep, Key, Value} <- lists:takewhile(IsBefore, Actions)],
    #{replica := Replica} = heal_table:restore({b, 1}),
    true = ets:delete(heal_registry),
    {_, Again} = heal_part:new((settings(b))#{replica => Replica, is_exact => false}),
    ?assertMatch({{{b, 1}, 3}, _}, element(1, heal_part:position(Again))).

%% Three nodes, whose primary is a.
joined_three() ->
    Pair = connect(a, b, fun none_lost/3, start([{a, #{}}, {b, #{}}, {c, #{}}])),
    connect(a, c, fun none_lost/3, connect(b, c, fun none_lost/3, Pair)).

%% A registry fails before its loser has its notice. When it starts again, the name that it answers for is its own: another exchange
%% decides.
fails_before_its_notice_test() ->
    heal_sim_world:start(none),
    Replica = heal_replica:resume({b, 1}, {{{a, 1}, 2}, 5}, 1, half(row(a, 7, a, 0))),
    {_, Part} = heal_part:new((settings(b))#{replica => Replica, own => #{?NAME => row(b, 3, b, 0)}}),
    ?assertMatch({{{b, 1}, 2}, _}, element(1, heal_part:position(Part))),
    ?assertMatch(#{?NAME := #row{pid = {pid, b, 3}}}, (heal_state:half(Part))#half.names).

%% Two parts have one registration, one of them before a change. Both take the same row from the exchange.
one_registration_in_two_parts_test() ->
    Parts = connect(a, b, fun unasked/3, start([{a, #{}}, {b, #{}}])),
    [Of, Of] = [merged(Node, Side, Row, Other, maps:get(Node, Parts))
                || {Node, Side, Row, Other} <- [{a, a, row(c, 1, c, 0), row(c, 1, c, 9)}, {b, b, row(c, 1, c, 9), row(c, 1, c, 0)}]].

%% The row that a node takes from an exchange, which ends with the other's list.
merged(Node, Side, Row, Other, Part) ->
    [Peer] = [a, b] -- [Side],
    {ok, Prepared} = heal_sim_world:prepare(Side, #{?NAME => Row}, #{}, 10),
    {ok, _, Begun} = heal_sim_world:open(1, 7, Prepared),
    {ok, Heard} = heal_sim_world:hear({Peer, 7, #{?NAME => heal_row:registration(Other)}}, Begun),
    Open = #open{node = Peer, number = 1, side = Side, from = position(Node, #{Node => Part}), handle = Heard, own = #{?NAME => Row},
                 others = heal_processes:groups(#{?NAME => Other}), begun = 1, deadline = 9,
                 members = [{{Peer, 1}, erlang:phash2(Peer, 1000)}],
                 stage = case Side of a -> listed; b -> offered end},
    {_, Finished} = handled(Node, {message, Peer, {list, 1, {[], []}}}, Part#part{heal = Open}),
    case Finished of
        #part{heal = #open{stage = {done, #half{names = #{?NAME := Merged}}, _}}} -> Merged;
        Led -> maps:get(?NAME, (heal_state:half(Led))#half.names)
    end.

%% The other node has its offer ready when the leader's comes, and sends it before it hears that one. It makes it anew if its half has
%% changed meanwhile.
ready_offer_test() ->
    #{b := Part} = connect(a, b, fun unasked/3, start([{a, #{}}, {b, #{}}])),
    Reference = {{a, 1}, 9},
    Members = [{{a, 1}, erlang:phash2(a, 1000)}],
    {_, Alone} = heal_part:handle(tick, 900, Part),
    {[{send, a, {hello, Reference, 0, _}}, Prepare], Engaged} = heal_part:handle({message, a, {ask, Reference, Members}}, 901, Alone),
    {[], Ready} = heal_part:handle(Prepare, 901, Engaged),
    Offers = fun(Of) ->
        Offer = {message, a, {offer, 1, 7, {{a, 7, #{}}, #{}, #{}, Members}, Reference}},
        {Actions, Open} = heal_part:handle(Offer, 902, Of),
        [{keep, greatest, 1}, {send, a, {offer, 1, 7, {_, Processes, _, _}, none}}, Hear] = Actions,
        ?assertMatch({continue, {hear, 1, _}}, Hear),
        ?assertMatch({_, #part{heal = #open{others = []}, prepared = none}}, heal_part:handle(Hear, 902, Open)),
        {Of#part.prepared, maps:keys(heal_processes:pids(Processes))}
    end,
    ?assertMatch({#prepared{}, []}, Offers(Ready)),
    Options = #{stamp => 1, weight => 0, extra => <<0:128>>, resolver => notify},
    {_, Changed} = heal_part:handle({call, 1, {adopt, ?NAME, ?NAME, Options, {pid, b, 1}, b}}, 902, Ready),
    ?assertMatch({#prepared{}, [?NAME]}, Offers(Changed)),
    %% The leader gives up.
    ?assertMatch({_, #part{prepared = none}}, heal_part:handle({message, a, {cancel, Reference}}, 902, Ready)).

%% The leader has its offer ready before it opens the exchange. Edits that come in between are made, and the offer has them.
leader_offer_test() ->
    Silent = fun(From, _, Body) -> From =:= b andalso element(1, Body) =:= hello end,
    #{a := Part = #part{heal = {asking, #asking{reference = Reference}}}} = connect(a, b, Silent, start([{a, #{}}, {b, #{}}])),
    Members = [{{b, 1}, erlang:phash2(b, 1000)}],
    %% Edits no longer wait for the other node.
    {_, Alone} = heal_part:handle(tick, 900, Part),
    {[{later, Step}], Ready} = heal_part:handle({message, b, {hello, Reference, 0, Members}}, 900, Alone),
    Options = #{stamp => 1, weight => 0, extra => <<0:128>>, resolver => notify},
    Adopt = fun(Name, Serial, Of) ->
        {Actions, Next} = heal_part:handle({call, Serial, {adopt, Name, Name, Options, {pid, a, Serial}, a}}, 900, Of),
        ?assertMatch([ok], [Answer || {reply, _, Answer} <- Actions]),
        Next
    end,
    Two = Adopt(<<"n2">>, 2, Adopt(?NAME, 1, Ready)),
    {_, Left} = heal_part:handle({call, 3, {unregister, <<"n2">>, any}}, 900, Two),
    {[{keep, greatest, 1}, {send, b, {propose, 1, _, _, Reference}}, Open], Proposed} = heal_part:handle({continue, Step}, 900, Left),
    {Actions, Opened} = heal_part:handle(Open, 900, Proposed),
    ?assertMatch([{send, b, {offer, 1, _, {{a, _, #{?NAME := _}}, [{_, {a, 1}, [{?NAME, _, {pid, a, 1}}]}], _, _}, Reference}}], Actions),
    [{send, b, {offer, 1, _, {{a, _, Names}, _, _, _}, _}}] = Actions,
    ?assertEqual([?NAME], maps:keys(Names)),
    ?assertMatch(#part{heal = #open{number = 1}, prepared = none}, Opened),
    %% A step of another query changes nothing.
    ?assertMatch({[], _}, heal_part:handle({continue, Step}, 900, Opened)).

%% A node of an earlier version sends and takes the processes of an offer as a map.
earlier_offer_test() ->
    Silent = fun(From, _, Body) -> From =:= b andalso element(1, Body) =:= hello end,
    #{a := Part = #part{heal = {asking, #asking{reference = Reference}}}} = connect(a, b, Silent, start([{a, #{}}, {b, #{}}])),
    [Here | _] = [Of || {send, a, {here, Of}} <- done(b)],
    Options = #{stamp => 1, weight => 0, extra => <<0:128>>, resolver => notify},
    Offer = fun(Announced) ->
        Do = fun(Event, Of) -> element(2, heal_part:handle(Event, 900, Of)) end,
        Filled = lists:foldl(Do, Part, [tick, {message, b, {here, Announced#{seq := 99}}}, {call, 1, {adopt, ?NAME, term, Options, {pid, a, 1}, a}}]),
        {[{later, Step}], Ready} = heal_part:handle({message, b, {hello, Reference, 0, []}}, 900, Filled),
        {[_, _, Open], Proposed} = heal_part:handle({continue, Step}, 900, Ready),
        {[{send, b, {offer, _, _, {_, Processes, _, _}, _}}], _} = heal_part:handle(Open, 900, Proposed),
        Processes
    end,
    Number = erlang:phash2(a, 1000),
    [Groups, Map] = Offers = [Offer(Here), Offer(maps:remove(groups, Here))],
    ?assertMatch([{Number, {a, 1}, [{?NAME, _, {pid, a, 1}, term}]}], Groups),
    ?assertMatch(#{?NAME := {{Number, _}, {pid, a, 1}, term, {a, 1}}}, Map),
    ?assertMatch([{Number, {a, 1}, [{?NAME, _, {pid, a, 1}, term}]}], heal_processes:received(Map)),
    ?assertEqual([1, 1], [heal_processes:count(Of) || Of <- Offers]).

%% A leader answers the callers that wait before it sends snapshots, and sends one after the other.
waiting_callers_test() ->
    Apart = connect(c, d, fun none_lost/3, connect(a, b, fun none_lost/3, start([{Node, #{names => 2}} || Node <- [a, b, c, d]]))),
    %% Before the merge nobody knows of room for another name.
    Halves = adopt(c, <<"n2">>, 2, adopt(a, <<"n2">>, 1, Apart)),
    Linked = lists:foldl(fun({One, Other}, Sum) -> connect(One, Other, fun none_lost/3, Sum) end, Halves, [{b, c}, {b, d}, {a, d}]),
    Waits = event(a, {up, c, visible}, fun none_lost/3, Linked),
    Options = #{stamp => 1, weight => 0, extra => <<0:128>>, resolver => notify},
    Called = event(a, {call, 7, {adopt, ?NAME, ?NAME, Options, {pid, a, 1}, a}}, fun none_lost/3, Waits),
    ?assertEqual([], [Reply || Reply = {reply, 7, _} <- done(a)]),
    put(done, []),
    Healed = event(c, {up, a, visible}, fun none_lost/3, Called),
    ?assertMatch([{{{a, 1}, _}, _}], lists:usort([position(Node, Healed) || Node <- [a, b, c, d]])),
    ?assertEqual([[?NAME, <<"n2">>]], lists:usort([maps:keys((heal_state:half(Part))#half.names) || Part <- maps:values(Healed)])),
    %% The actions are here with the last one first.
    ?assertMatch([{send, d, _}, {send, b, _}, {reply, 7, ok}], [Action || Action <- done(a), element(1, Action) =:= reply orelse is_snapshot(Action)]),
    ?assertMatch([_, _ | _], [Action || Action = {later, welcome} <- done(a)]).

is_snapshot({send, _, {Kind, _}}) -> Kind =:= snapshot orelse Kind =:= difference;
is_snapshot(_Action) -> false.

%% Two nodes with a name each, whose exchange is open: both have heard the other's offer. Returns the list that the other one has yet to hear.
opened() ->
    opened(adopt(b, <<"b1">>, 11, adopt(a, <<"a1">>, 1, start([{a, #{}}, {b, #{}}])))).

opened(Apart) ->
    Lost = fun(From, To, Body = {list, _, _}) -> put(From, {To, {message, From, Body}}), true; (_, _, _) -> false end,
    Opened = connect(a, b, Lost, Apart),
    ?assertEqual([listed, offered], [Stage || #part{heal = #open{stage = Stage}} <- maps:values(Opened)]),
    put(done, []),
    {get(a), Opened}.

adopt(Node, Name, Serial, Parts) ->
    adopt(Node, Name, Serial, notify, Parts).

adopt(Node, Name, Serial, Resolver, Parts) ->
    Options = #{stamp => Serial, weight => 0, extra => <<0:128>>, resolver => Resolver},
    event(Node, {call, Serial, {adopt, Name, Name, Options, {pid, Node, Serial}, Node}}, fun none_lost/3, Parts).

replies(Node) ->
    lists:sort([{N, Answer} || {reply, N, Answer} <- done(Node)]).

names_of(Node, Parts) ->
    lists:sort(maps:keys(names(Node, Parts))).

%% The last steps of a heal come one by one after the messages that have arrived, so that no caller waits for two of them. The leader plans what
%% changes before it starts the view, the other node follows in a step by itself also if it has heard of the view before, and the view is
%% settled once.
steps_test() ->
    {{b, OfA}, #{a := A, b := B}} = opened(),
    {[{send, a, List}, Finish = {continue, {finish, 1, _}}], Listed} = heal_part:handle(OfA, 2, B),
    {[{later, {merge, 1}}], Finished} = heal_part:handle(Finish, 2, Listed),
    {[{later, {keep, 1}}], Merged} = heal_part:handle({continue, {merge, 1}}, 2, Finished),
    {[{later, {merge, 1}}], Heard} = heal_part:handle({message, b, List}, 2, A),
    {[{later, {plan, 1}}], Judged} = heal_part:handle({continue, {merge, 1}}, 2, Heard),
    {[{later, {led, 1}}], Planned} = heal_part:handle({continue, {plan, 1}}, 2, Judged),
    {Starting, Started} = heal_part:handle({continue, {led, 1}}, 2, registered(a, 2, Planned)),
    [View] = [Of || {send, b, {finished, 1, Of}} <- Starting],
    ?assertEqual([<<"a1">>, <<"a2">>, <<"b1">>], names_of(a, #{a => Started})),
    {[], Informed} = heal_part:handle({message, a, {finished, 1, View}}, 2, Merged),
    {[{later, {follow, 1}}], Kept} = heal_part:handle({continue, {keep, 1}}, 2, Informed),
    ?assertEqual(position(b, #{b => B}), position(b, #{b => Kept})),
    {Following, Followed} = heal_part:handle({continue, {follow, 1}}, 2, registered(b, 3, Kept)),
    ?assertMatch({View, _}, position(b, #{b => Followed})),
    [Joined] = [Body || {send, a, Body = {finished, _, _, _, _}} <- Following],
    {Joining, All} = heal_part:handle({message, b, Joined}, 2, Started),
    ?assertEqual([settle], [Step || {later, Step} <- Joining]),
    {Settling, Settled} = heal_part:handle({continue, settle}, 2, registered(a, 4, All)),
    ?assertMatch([_], [At || {send, b, {settled, At}} <- Settling]),
    ?assertEqual([<<"a1">>, <<"a2">>, <<"a4">>, <<"b1">>, <<"b3">>], names_of(a, #{a => Settled})).

%% The part of a node that registers a process and answers at once, without a further step.
registered(Node, N, Part) ->
    Name = <<(atom_to_binary(Node))/binary, (integer_to_binary(N))/binary>>,
    Options = #{stamp => N, weight => 0, extra => <<0:128>>, resolver => notify},
    {Actions, Next} = heal_part:handle({call, N, {adopt, Name, Name, Options, {pid, Node, N}, Node}}, 2, Part),
    ?assertEqual({[ok], []}, {[Answer || {reply, Of, Answer} <- Actions, Of =:= N], [Step || {later, Step} <- Actions]}),
    Next.

%% A node that has just joined a view doesn't compare its registrations with all names again before some time is over: its message may be lost.
compares_later_test() ->
    Filled = lists:foldl(fun(N, Sum) -> adopt(a, <<"n", (integer_to_binary(N))/binary>>, N, Sum) end,
                         start([{Node, #{names => 100}} || Node <- [a, b]]), lists:seq(1, 100)),
    Lost = fun(_, _, Body) -> tuple_size(Body) =:= 5 andalso element(1, Body) =:= finished end,
    Followed = connect(a, b, Lost, Filled),
    Joined = fun() -> length([joined || {send, a, {finished, _, _, _, _}} <- done(b)]) end,
    ?assertEqual(1, Joined()),
    [Here = #{seq := Seq, is_settled := false} | _] = [Of || {send, b, {here, Of}} <- done(a)],
    Soon = event_at(3, b, {message, a, {here, Here#{seq := Seq + 1}}}, Followed),
    ?assertEqual(1, Joined()),
    _ = event_at(4, b, {message, a, {here, Here#{seq := Seq + 2}}}, Soon),
    ?assertEqual(2, Joined()).

%% In an open exchange a primary's process gets a name that neither side has, and may unregister it. The part has what is left when the
%% exchange is over or abandoned. Other edits wait.
granted_test() ->
    {{To, List}, Opened} = opened(),
    Calls = [{2, <<"n1">>}, {3, <<"n2">>}, {4, <<"n3">>}, {5, <<"b1">>}, {6, <<"n1">>}],
    Called = #{a := #part{own = Own}} = lists:foldl(fun({N, Name}, Sum) -> adopt(a, Name, N, Sum) end, Opened, Calls),
    ?assertEqual([{2, ok}, {3, ok}, {4, ok}, {6, {error, 30}}], replies(a)),
    [Second, Third] = [heal_row:owner(maps:get(Name, Own)) || Name <- [<<"n2">>, <<"n3">>]],
    Edits = [{call, 9, {unregister, <<"n2">>, any}}, {call, 10, {unregister, <<"n1">>, {0, 0}}}, {died, <<"n3">>, Third}],
    Left = lists:foldl(fun(Edit, Sum) -> event(a, Edit, fun none_lost/3, Sum) end, Called, Edits),
    ?assertEqual([{9, {ok, Second}}, {10, {error, not_held}}], [Reply || Reply = {N, _} <- replies(a), N > 6]),
    Both = adopt(b, <<"n4">>, 12, Left),
    ?assertEqual([{12, ok}], replies(b)),
    ?assertEqual([[<<"a1">>], [<<"b1">>]], [names_of(Node, Both) || Node <- [a, b]]),
    Healed = event(To, List, fun none_lost/3, Both),
    ?assertEqual(position(a, Healed), position(b, Healed)),
    ?assertEqual([<<"a1">>, <<"b1">>, <<"n1">>, <<"n4">>], names_of(a, Healed)),
    ?assertEqual([{5, {error, 30}}], [Reply || Reply = {5, _} <- replies(a)]),
    GivenUp = event_at(3000, a, tick, event_at(3000, b, tick, Both)),
    ?assertEqual([[<<"a1">>, <<"n1">>], [<<"b1">>, <<"n4">>]], [names_of(Node, GivenUp) || Node <- [a, b]]),
    ?assertEqual([#{}], lists:usort([Granted || #part{granted = Granted} <- maps:values(Healed) ++ maps:values(GivenUp)])).

%% Both sides grant a name: an exchange decides who has it.
granted_twice_test() ->
    {{To, List}, Opened} = opened(),
    Healed = event(To, List, fun none_lost/3, adopt(b, <<"n1">>, 12, adopt(a, <<"n1">>, 2, Opened))),
    ?assertEqual([{2, ok}], replies(a)),
    ?assertEqual([{12, ok}], replies(b)),
    ?assertEqual(position(a, Healed), position(b, Healed)),
    Facts = [{Node, Number, Clashes} || {Node, {healed, #{number := Number, clashes := Clashes}}} <- get(done)],
    ?assertEqual([{a, 1, 0}, {a, 2, 1}, {b, 1, 0}, {b, 2, 1}], lists:sort(Facts)).

%% One of these homes leaves its part before it has notified the losers of the exchange. They lose their names all the same.
granted_twice_with_losers_test() ->
    Clashing = adopt(b, <<"x">>, 11, notify_all, adopt(a, <<"x">>, 1, notify_all, start([{a, #{}}, {b, #{}}]))),
    {{To, List}, Opened} = opened(Clashing),
    Healed = event(To, List, fun none_lost/3, adopt(b, <<"n1">>, 12, adopt(a, <<"n1">>, 2, Opened))),
    ?assertEqual(position(a, Healed), position(b, Healed)),
    ?assertEqual([<<"n1">>], names_of(a, Healed)),
    Lost = [{Node, Pid, Kind} || {Node, {lost, Losers}} <- get(done), {<<"x">>, #row{pid = Pid}, {{Kind, _}, _}} <- Losers],
    ?assertEqual([{a, {pid, a, 1}, conflict_with}, {b, {pid, b, 11}, conflict_with}], lists:sort(Lost)).

%% A name isn't granted with a program that its part doesn't know, or that the merge may lack: its caller waits and is refused.
unknown_program_test() ->
    {{To, List}, Opened} = opened(),
    Called = adopt(a, <<"n1">>, 2, {program, <<7:256>>}, Opened),
    ?assertEqual([], replies(a)),
    Healed = event(To, List, fun none_lost/3, Called),
    ?assertEqual([{2, {error, 41}}], replies(a)),
    ?assertEqual([<<"a1">>, <<"b1">>], names_of(a, Healed)).

too_many_programs_test() ->
    Upload = fun(Node) -> fun(N, Parts) -> event(Node, {call, N, {upload, <<N:256>>, <<N:64>>}}, fun none_lost/3, Parts) end end,
    Apart = adopt(b, <<"b1">>, 11, adopt(a, <<"a1">>, 1, start([{a, #{}}, {b, #{}}]))),
    Few = lists:foldl(Upload(b), lists:foldl(Upload(a), Apart, lists:seq(1001, 1128)), lists:seq(1129, 1256)),
    Register = fun(Parts) ->
        {_, Opened} = opened(Parts),
        _ = adopt(a, <<"n1">>, 2, {program, <<1001:256>>}, Opened),
        replies(a)
    end,
    ?assertEqual([{2, ok}], Register(Few)),
    ?assertEqual([], Register((Upload(b))(1257, Few))).

%% A member's process gets such a name from its primary, and finds it. The next view has it from the start, so nobody else gets it there.
granted_to_a_member_test() ->
    Linked = connect(b, c, fun none_lost/3, connect(a, c, fun none_lost/3, start([{a, #{}}, {b, #{}}, {c, #{}}]))),
    ?assertEqual([c], maps:keys((maps:get(a, Linked))#part.members)),
    {{To, List}, Opened} = opened(Linked),
    Called = lists:foldl(fun({Node, N}, Sum) -> adopt(Node, <<"n1">>, N, Sum) end, Opened, [{c, 1}, {a, 2}, {c, 3}]),
    ?assertEqual([{1, ok}, {3, {error, 30}}], replies(c)),
    ?assertEqual([], replies(a)),
    Healed = event(To, List, fun none_lost/3, Called),
    ?assertMatch([_], lists:usort([position(Node, Healed) || Node <- [a, b, c]])),
    ?assertEqual([{2, {error, 30}}], replies(a)),
    ?assertMatch([#{<<"n1">> := #row{pid = {pid, c, 1}}}], lists:usort([names(Node, Healed) || Node <- [a, b, c]])),
    %% The exchange is given up, or the primary is lost.
    GivenUp = event(a, {down, b}, fun none_lost/3, Called),
    ?assertMatch([#{<<"n1">> := #row{pid = {pid, c, 1}}}], lists:usort([names(Node, GivenUp) || Node <- [a, c]])),
    Left = event(c, {down, a}, fun none_lost/3, maps:remove(a, Called)),
    ?assertMatch(#{<<"n1">> := #row{pid = {pid, c, 1}}}, names(c, Left)).

%% A caller waits where the exchange may yet have the name, the table no room, or an earlier caller the name.
not_granted_test() ->
    Silent = fun(_, _, Body) -> element(1, Body) =:= offer end,
    Unheard = adopt(a, <<"n1">>, 2, connect(a, b, Silent, start([{a, #{}}, {b, #{}}]))),
    ?assertMatch(#{a := #part{heal = #open{others = none}}}, Unheard),
    ?assertEqual([], replies(a)),
    {_, Opened} = opened(),
    Register = fun(N, Parts) -> adopt(a, <<"n", (integer_to_binary(N))/binary>>, N, Parts) end,
    _ = lists:foldl(Register, Opened, lists:seq(2, 10)),
    ?assertEqual([{N, ok} || N <- lists:seq(2, 9)], replies(a)),
    %% The other node has requested the name for a process of this one.
    put(done, []),
    Options = #{stamp => 1, weight => 0, extra => <<0:128>>, resolver => notify},
    Requested = {adopt, 1, {adopt, <<"n2">>, <<"n2">>, Options, {pid, a, 20}, a}},
    _ = Register(2, event(a, {message, b, Requested}, fun none_lost/3, Opened)),
    ?assertEqual([], replies(a)).

%% A caller whose registration comes with the merge is answered after the leader's table has it.
merged_registration_test() ->
    Connected = connect(a, c, fun unasked/3, start([{a, #{}}, {c, #{}}])),
    %% Edits no longer wait for the exchange.
    Apart = event_at(900, c, tick, event_at(900, a, tick, Connected)),
    Options = #{stamp => 1, weight => 0, extra => <<0:128>>, resolver => notify},
    Called = event(a, {call, 7, {adopt, ?NAME, ?NAME, Options, {pid, c, 1}, c}}, fun unasked/3, Apart),
    ?assertEqual(1, map_size((maps:get(a, Called))#part.arriving)),
    Left = event(c, {down, a}, fun none_lost/3, event(a, {down, c}, fun none_lost/3, Called)),
    put(done, []),
    Healed = connect(a, c, fun none_lost/3, Left),
    ?assertEqual(position(a, Healed), position(c, Healed)),
    ?assertMatch([{rows, [{?NAME, _}], []}, {reply, 7, ok}], [Action || Action <- done(a), lists:member(element(1, Action), [rows, reply])]).

%% A name that the other side offers without a process takes nothing from this node, whether that side wins or nobody does.
offered_without_a_process_test() ->
    Row = row(a, 1, a, 0),
    Open = #open{node = b, number = 1, side = a, from = none, handle = none, own = #{?NAME => Row}, others = [], begun = 1, deadline = 9},
    Lost = fun(Verdict, Values, Others, Merged) ->
        Losses = [{?NAME, heal_row:owner(Row), first, Verdict, notify, Values}],
        Losers = heal_losers:judged({Losses, []}, [], Open#open{others = Others}, #half{names = Merged}, heal_sim_world),
        maps:keys(heal_losers:lost(Losers, #{?NAME => Row}))
    end,
    Offered = [{erlang:phash2(b, 1000), {b, 1}, [{?NAME, 1, {pid, b, 1}}]}],
    ?assertEqual([?NAME], Lost(neither, none, Offered, #{})),
    ?assertEqual([], Lost(neither, none, [], #{})),
    %% The merge keeps this node's row where it has no process for the other one.
    ?assertEqual([?NAME], Lost(second, values, Offered, #{?NAME => row(b, 1, b, 0)})),
    ?assertEqual([], Lost(second, values, [], #{?NAME => Row})).

%% A primary declines the query of a part that it isn't fully connected with. Once it is, the parts heal without another tick. An earlier
%% version sends no invitation.
declined_query_test() ->
    Pair = connect(a, c, fun none_lost/3, start([{a, #{}}, {b, #{}}, {c, #{}}])),
    Views = fun(Parts) -> lists:usort([element(1, position(Node, Parts)) || Node <- [a, b, c]]) end,
    Declined = connect(a, b, fun none_lost/3, Pair),
    ?assertMatch([_], [Busy || Busy = {send, a, {busy, _}} <- done(b)]),
    ?assertMatch([_, _], Views(Declined)),
    ?assertMatch([{{a, 1}, _}], Views(connect(b, c, fun none_lost/3, Declined))),
    Earlier = fun(_, _, Body) -> element(1, Body) =:= ready end,
    ?assertMatch([_, _], Views(connect(b, c, Earlier, Declined))).

%% An earlier version proposes nothing and ignores proposals, so the other node begins when it hears the offer. Otherwise it begins
%% before.
proposal_test() ->
    Begins = fun(Lost) ->
        Parts = connect(a, b, Lost, start([{a, #{}}, {b, #{}}])),
        ?assertEqual(position(a, Parts), position(b, Parts)),
        [Step || {continue, {hear, 1, _} = Step} <- done(b)]
    end,
    ?assertMatch([{hear, 1, _}], Begins(fun(_, _, Body) -> element(1, Body) =:= propose end)),
    ?assertEqual([], Begins(fun none_lost/3)).

%% The more names two parts have, the longer each waits for the other one's next step.
many_names_test() ->
    Begun = many_names(5000),
    Deadlines = fun(Kind) ->
        Parts = connect(a, b, fun(_, _, Body) -> element(1, Body) =:= Kind end, Begun),
        [{Node, Deadline} || {Node, #part{heal = #open{deadline = Deadline}}} <- lists:sort(maps:to_list(Parts))]
    end,
    ?assertEqual([{a, 2 + 2000 + 100}, {b, 2 + 2000 + 100}], Deadlines(list)),
    %% Before b has heard the offer it doesn't know of the names, and in the end it has the merge.
    ?assertMatch([{b, 2 + 2000}], [Of || Of = {b, _} <- Deadlines(offer)]),
    ?assertEqual([{b, 2 + 2000 + 100}], Deadlines(finished)),
    %% Making an offer takes longer too, and the other node may have as many names as this one may have.
    Waiting = connect(a, b, fun(_, _, Body) -> element(1, Body) =:= hello end, Begun),
    ?assertEqual([{a, 2 + 1001 + 100}, {b, 2 + 1001 + 100}],
                 [{Node, Deadline} || {Node, #part{heal = {_, #asking{deadline = Deadline}}}} <- lists:sort(maps:to_list(Waiting))]).

%% The more names a part has, the longer a registry that has failed may take to start again.
failed_registry_test() ->
    Failed = event_at(3, b, {failed, a}, connect(a, b, fun none_lost/3, many_names(5000))),
    Count = fun(Now, Event) -> heal_part:count(maps:get(b, event_at(Now, b, Event, Failed))) end,
    ?assertEqual(5000, Count(3 + 4000 + 100, tick)),
    ?assertEqual(0, Count(3 + 4000 + 101, tick)),
    ?assertEqual(0, Count(4, {absent, a})).

%% Returns two nodes, the first of which has this number of names.
many_names(Count) ->
    start([{a, with_names(a, Count, Count)}, {b, #{names => Count}}]).

%% The settings of a node that has this number of names.
with_names(Node, Count, Limit) ->
    Names = maps:from_list([{Name, heal_row:new(Name, heal_row:registration(row(Node, N, Node, 0)), {pid, Node, N}, Name, {Node, 1})}
                            || N <- lists:seq(1, Count), Name <- [<<(atom_to_binary(Node))/binary, (integer_to_binary(N))/binary>>]]),
    Replica = heal_replica:resume({Node, 1}, {{{Node, 1}, 1}, Count}, 1, #half{names = Names}),
    #{names => Limit, replica => Replica, own => Names}.

%% The registry of a primary starts again, and its snapshots are lost. The more names there are, the longer the other node waits for one, and
%% the longer the primary keeps the names of that node.
follows_many_names_test() ->
    Joined = #{a := A} = connect(a, b, fun none_lost/3, start([{a, with_names(a, 5000, 5001)}, {b, with_names(b, 1, 5001)}])),
    #part{replica = Replica, own = Own} = A,
    {Actions, Again} = heal_part:new((settings(a))#{names => 5001, replica => Replica, own => Own, connected => [{b, visible}], seq => 100}),
    [First | _] = Announced = [Body || {send, b, Body = {here, _}} <- Actions],
    Heard = lists:foldl(fun(Body, Sum) -> event_at(3, b, {message, a, Body}, Sum) end, Joined#{a := Again}, Announced),
    ?assertNotEqual(position(a, Heard), position(b, Heard)),
    Count = fun(Now, Node, Parts) -> heal_part:count(maps:get(Node, event_at(Now, Node, tick, Parts))) end,
    ?assertEqual(5001, Count(3 + 500 + 199, b, Heard)),
    ?assertEqual(1, Count(3 + 500 + 200, b, Heard)),
    {here, #{at := At}} = First,
    [Answer | _] = [Body || {send, a, Body = {here, #{at := Of}}} <- done(b), Of =:= At],
    Answered = event_at(3, a, {message, b, Answer}, Heard),
    ?assertEqual(5001, Count(1 + 500 + 199, a, Answered)),
    ?assertEqual(5000, Count(1 + 500 + 200, a, Answered)).

%% A node wants a snapshot again that hasn't arrived. The more names there are, the longer it waits for it.
wants_again_test() ->
    Joined = connect(a, b, fun none_lost/3, many_names(5000)),
    {View, Operation} = position(b, Joined),
    {here, Here = #{seq := Seq}} = hd([Body || {send, b, Body = {here, _}} <- done(a)]),
    Wants = fun({Later, Now}, Parts) ->
        put(done, []),
        Next = event_at(Now, b, {message, a, {here, Here#{seq := Seq + Later, at := {View, Operation + 2}}}}, Parts),
        {[want || {send, a, {want, _}} <- done(b)], Next}
    end,
    {Each, _} = lists:mapfoldl(Wants, Joined, [{10, 3}, {11, 102}, {12, 103}]),
    ?assertEqual([[want], [], [want]], Each).

%% A node joins again if its part lacks one of its registrations. The more names there are, the less often it looks.
looks_for_lost_names_test() ->
    Joined = #{b := B} = connect(a, b, fun none_lost/3, many_names(5000)),
    Lacking = Joined#{b := B#part{own = #{<<"b1">> => heal_row:new(<<"b1">>, heal_row:registration(row(b, 1, b, 0)), {pid, b, 1}, b1, {b, 1})}}},
    {here, Here = #{seq := Seq}} = hd([Body || {send, b, Body = {here, _}} <- done(a)]),
    Joins = fun({Later, Now}, Parts) ->
        put(done, []),
        Next = event_at(Now, b, {message, a, {here, Here#{seq := Seq + Later, at := position(a, Parts), is_settled := true}}}, Parts),
        {[finished || {send, a, {finished, _, _, _, [_]}} <- done(b)], Next}
    end,
    {Each, _} = lists:mapfoldl(Joins, Lacking, [{10, 3}, {11, 102}, {12, 103}, {13, 202}]),
    ?assertEqual([[], [finished], [], [finished]], Each).

%% An exchange that an earlier version of the registry began is given up. One of this version goes on.
upgraded_exchange_test() ->
    #{a := Part} = start([{a, #{}}]),
    Open = #open{node = b, number = 1, side = a, from = position(a, #{a => Part}), handle = make_ref(), begun = 1, deadline = 9},
    Begun = Part#part{heal = Open},
    Cut = fun(Size) -> list_to_tuple(lists:sublist(tuple_to_list(Begun), Size)) end,
    [?assertMatch(#part{heal = idle}, heal_part:upgrade(Cut(Size - 1))) || Size <- [#part.lost, #part.full, #part.grouping]],
    ?assertMatch(#part{heal = Open}, heal_part:upgrade(Begun)),
    [?assertMatch(#part{heal = Open}, heal_part:upgrade(Begun#part{heal = list_to_tuple(lists:sublist(tuple_to_list(Open), Size))}))
     || Size <- [#open.deadline, #open.theirs]].

%% A change that was sent to a primary which is lost may have been made, so a refusal by the next one means nothing.
repeated_change_test() ->
    Joined = connect(a, b, fun none_lost/3, start([{a, #{}}, {b, #{}}])),
    Lost = fun(b, a, {request, _, _, _}) -> true; (_, _, _) -> false end,
    Called = event(b, {call, 7, {change, ?NAME, any, #{weight => 1}}}, Lost, Joined),
    _ = event(b, {down, a}, fun none_lost/3, Called),
    ?assertEqual([{reply, 7, {error, {timeout, unknown}}}], [Reply || Reply = {reply, 7, _} <- done(b)]).

%% A primary begins another view. Its member's requests that it has yet to make, or takes no more, are certain to be made once at most.
sure_change_test() ->
    Linked = connect(b, c, fun none_lost/3, connect(a, c, fun none_lost/3, start([{a, #{}}, {b, #{}}, {c, #{}}]))),
    {{To, List}, Opened} = opened(Linked),
    Change = fun(N) -> {call, N, {change, ?NAME, any, #{weight => N}}} end,
    Waits = event(c, Change(7), fun none_lost/3, Opened),
    Late = fun(c, a, Body = {request, _, _, _}) -> put(late, Body), true; (_, _, _) -> false end,
    Sent = event(c, Change(8), Late, Waits),
    %% The snapshot is on its way when the second request arrives.
    Held = fun(a, c, Body) when element(1, Body) =:= snapshot; element(1, Body) =:= difference -> put(held, Body), true; (_, _, _) -> false end,
    Led = event(To, List, Held, Sent),
    ?assertNotEqual(position(a, Led), position(c, Led)),
    Ignored = event(a, {message, c, get(late)}, fun none_lost/3, Led),
    Healed = event(c, {message, a, get(held)}, fun none_lost/3, Ignored),
    ?assertEqual(position(a, Healed), position(c, Healed)),
    ?assertEqual([{7, {error, 31}}, {8, {error, 31}}], replies(c)).

%% A request was sent in an earlier view, and a full connection refuses it in the next one. It isn't known whether it is made.
refused_again_test() ->
    Joined = joined_three(),
    Refused = fun(c, _, {request, _, _, _} = Body) -> put(request, Body), true; (_, _, _) -> false end,
    Called = event(c, {call, 7, {unregister, ?NAME, any}}, Refused, Joined),
    Left = event(c, {down, a}, Refused, event(b, {down, a}, Refused, Called)),
    ?assertMatch({{b, 1}, _}, element(1, position(c, Left))),
    ?assertEqual(element(1, position(c, Left)), element(2, get(request))),
    Full = event(c, {refused, b, [get(request)]}, fun none_lost/3, Left),
    _ = event_at(902, c, tick, Full),
    ?assertEqual([{reply, 7, {error, {timeout, unknown}}}], [Reply || Reply = {reply, 7, _} <- done(c)]).

%% A caller waits until its program is on the disk. A report of an earlier write doesn't answer it.
stored_before_answered_test() ->
    Two = event(a, upload(2), fun none_lost/3, event(a, upload(1), fun none_lost/3, start([{a, #{disk => {[], none}}}]))),
    Replies = fun(Ids, Lacking, Problem, Parts) ->
        put(done, []),
        Next = event(a, {disk, Ids, Lacking, Problem}, fun none_lost/3, Parts),
        {[{N, Answer} || {reply, N, Answer} <- done(a)], Next}
    end,
    {First, One} = Replies([<<1:256>>], [], none, Two),
    ?assertEqual([{1, {ok, <<1:256>>}}], First),
    ?assertMatch({[{2, {ok, <<2:256>>}}], _}, Replies([<<1:256>>, <<2:256>>], [], none, One)),
    ?assertMatch({[{2, {error, {not_stored, full}}}], _}, Replies([<<1:256>>], [<<2:256>>], full, One)).

%% A node that has announced itself is to be connected again when it is lost, also if it is refused. One that runs no registry, is hidden, or
%% belongs to another scope is not.
met_test() ->
    Met = fun(Event, More) ->
        Parts = start([{a, #{}}, {b, More}]),
        _ = event(a, Event, fun none_lost/3, event(b, {up, a, visible}, fun none_lost/3, Parts)),
        lists:usort([Node || {keep, {met, Node}, true} <- done(a)])
    end,
    ?assertEqual([b], Met({up, b, visible}, #{})),
    ?assertEqual([b], Met({up, b, visible}, #{number => erlang:phash2(a, 1000)})),
    ?assertEqual([], Met({up, b, hidden}, #{})),
    ?assertEqual([], Met({up, b, visible}, #{scope => other})),
    ?assertEqual([], Met({up, c, visible}, #{})),
    %% A node of another version is refused too.
    _ = event(a, {version, c, 9}, fun none_lost/3, event(a, {up, c, visible}, fun none_lost/3, start([{a, #{}}]))),
    ?assertMatch([_], [Node || {keep, {met, Node = c}, true} <- done(a)]).

%% A registry that starts again knows whom it has met.
keeps_met_test() ->
    ok = heal_table:create(),
    [ok = heal_table:keep(Key, true) || Key <- [{met, b}, {met, c}, {own, <<"d">>}]],
    Met = heal_table:met(),
    ok = heal_table:forget({met, b}),
    Left = heal_table:met(),
    true = ets:delete(heal_registry),
    ?assertEqual({[b, c], [c]}, {lists:sort(Met), Left}).

%% Two parts have more programs than there is room for. A registry that starts again has those in its half that the part has, and no others:
%% the part could exchange with nobody.
programs_without_room_test() ->
    Programs = fun(From, To) -> maps:from_list([{<<N:256>>, <<N>>} || N <- lists:seq(From, To)]) end,
    Healed = connect(a, b, fun none_lost/3, start([{a, #{programs => Programs(1, 200)}}, {b, #{programs => Programs(201, 400)}}])),
    #part{programs = All} = maps:get(b, Healed),
    Half = #half{programs = Known} = heal_state:half(maps:get(b, Healed)),
    ?assertEqual({400, 256}, {map_size(All), map_size(Known)}),
    ok = heal_table:create(),
    [ok = heal_table:keep(Key, Value) || {keep, Key, Value} <- lists:reverse(done(b))],
    ok = heal_table:keep_position(position(b, Healed), 1, Half#half.latest),
    #{replica := Replica, programs := Kept} = heal_table:restore({b, 1}),
    true = ets:delete(heal_registry),
    ?assertEqual({All, Half}, {Kept, heal_replica:half(Replica)}).

%% What rows name stays, also if that leaves programs of the leader out: a half that lacked one of them could exchange with nobody.
named_program_stays_test() ->
    Programs = fun(From, To) -> maps:from_list([{<<N:256>>, <<N>>} || N <- lists:seq(From, To)]) end,
    Apart = start([{a, #{programs => Programs(1, 256)}}, {b, #{programs => Programs(257, 400)}}]),
    Healed = connect(a, b, fun none_lost/3, event(b, {call, 1, {register, ?NAME, program_row(?NAME, b, 1, 400)}}, fun none_lost/3, Apart)),
    [#half{names = Names, programs = Known} | _] = Halves = [heal_state:half(maps:get(Node, Healed)) || Node <- [a, b]],
    ?assertEqual([hd(Halves)], lists:usort(Halves)),
    ?assertEqual([?NAME], maps:keys(Names)),
    ?assertEqual([<<N:256>> || N <- lists:seq(1, 255) ++ [400]], lists:sort(maps:keys(Known))).

%% Rows name more programs than there is room for: the parts stay apart, and show so.
too_many_named_programs_test() ->
    Programs = fun(From, To) -> maps:from_list([{<<N:256>>, <<N>>} || N <- lists:seq(From, To)]) end,
    Apart = start([{a, #{programs => Programs(1, 150), names => 1000}}, {b, #{programs => Programs(151, 300), names => 1000}}]),
    Name = fun(N) -> <<"n", (integer_to_binary(N))/binary>> end,
    Register = fun({Node, N}, Parts) ->
        event(Node, {call, N, {register, Name(N), program_row(Name(N), Node, N, N)}}, fun none_lost/3, Parts)
    end,
    Full = lists:foldl(Register, Apart, [{a, N} || N <- lists:seq(1, 150)] ++ [{b, N} || N <- lists:seq(151, 300)]),
    Met = connect(a, b, fun none_lost/3, Full),
    ?assertMatch(#part{heal = idle, peers = #{b := #peer{failed = 43}}}, maps:get(a, Met)),
    ?assertMatch(#part{heal = idle, peers = #{a := #peer{failed = 43}}}, maps:get(b, Met)),
    ?assertEqual([150, 150], [heal_state:count(maps:get(Node, Met)) || Node <- [a, b]]).

program_row(Name, Node, Serial, Program) ->
    Registration = #{owner => {erlang:phash2(Node, 1000), Serial}, stamp => 1, weight => 0, extra => <<0:128>>,
                     resolver => {program, <<Program:256>>}},
    heal_row:new(Name, Registration, {pid, Node, Serial}, Name, {Node, 1}).

%% A node has healed once it has the merge: not if the leader is gone before.
unfollowed_merge_test() ->
    Apart = start([{a, #{}}, {b, #{}}]),
    NotFinished = fun(_, _, Body) -> tuple_size(Body) =:= 3 andalso element(1, Body) =:= finished end,
    Met = connect(a, b, NotFinished, Apart),
    ?assertMatch(#part{heal = #open{stage = {done, _, _}}}, maps:get(b, Met)),
    Facts = fun(Node) -> [With || {healed, #{with := With}} <- done(Node)] end,
    ?assertEqual({[b], []}, {Facts(a), Facts(b)}),
    {finished, Number, View} = hd([Body || {send, b, Body} <- done(a), tuple_size(Body) =:= 3, element(1, Body) =:= finished]),
    _ = event(b, {message, a, {finished, Number, View}}, fun none_lost/3, Met),
    ?assertEqual([a], Facts(b)).

%% An unregistration that the home has confirmed isn't made again in a later view, where the name may have another process.
confirmed_unregistration_test() ->
    Joined = lists:foldl(fun({One, Other}, Sum) -> connect(One, Other, fun none_lost/3, Sum) end, start([{a, #{}}, {b, #{}}, {c, #{}}]),
                         [{a, b}, {a, c}, {b, c}]),
    [First, Second] = [row(b, Serial, b, 0) || Serial <- [1, 2]],
    Registered = event(b, {call, 1, {register, ?NAME, First}}, fun none_lost/3, Joined),
    Late = fun(From, To, _) -> {From, To} =:= {a, c} end,
    Unregistered = event(c, {call, 2, {unregister, ?NAME, any}}, Late, Registered),
    Again = event(b, {call, 3, {register, ?NAME, Second}}, Late, Unregistered),
    ?assertEqual([{reply, 1, ok}, {reply, 3, ok}], [Reply || Reply = {reply, _, _} <- lists:reverse(done(b))]),
    Left = lists:foldl(fun(Node, Sum) -> event(Node, {down, a}, fun none_lost/3, Sum) end, maps:remove(a, Again), [b, c]),
    ?assertEqual([heal_row:owner(Second)], lists:usort([heal_state:owner(?NAME, maps:get(Node, Left)) || Node <- [b, c]])),
    ?assertEqual([{reply, 2, {ok, heal_row:owner(First)}}], [Reply || Reply = {reply, _, _} <- done(c)]).

%% A registration of an earlier life of a node, of the same owner, has lost against that of the node's process.
earlier_life_test() ->
    Row = #row{pid = Pid} = row(a, 1, a, 0),
    Lost = fun(Rival) -> heal_losers:lost([{?NAME, heal_row:owner(Row), {{conflict, first}, Rival}}], #{?NAME => Row}) end,
    ?assertEqual({#{}, [?NAME]}, {Lost(Pid), maps:keys(Lost({pid, b, 1}))}).

%% A node in the middle of two that aren't connected learns that they don't heal.
sync_in_the_middle_test() ->
    Middle = connect(b, c, fun none_lost/3, connect(a, b, fun none_lost/3, start([{a, #{}}, {b, #{}}, {c, #{}}]))),
    [{Apart, _}] = [{Node, At} || Node <- [a, c], At <- [position(Node, Middle)], At =/= position(b, Middle)],
    ?assert(lists:member(Apart, [a, c])),
    put(done, []),
    Soon = event_at(3, b, {sync, 1}, Middle),
    ?assertEqual([], [Reply || Reply = {reply, _, _} <- done(b)]),
    _ = event_at(10000, b, {sync, 2}, Soon),
    ?assertEqual([{reply, 1, {error, apart}}, {reply, 2, {error, apart}}], lists:sort([Reply || Reply = {reply, _, _} <- done(b)])).

%% Two parts of two nodes each that can't heal: all nodes learn so, also where the other part has a node that begins no exchange.
sync_of_parts_that_stay_apart_test() ->
    Apart = full_of_programs([{a, b, 1}, {c, d, 151}]),
    Met = lists:foldl(fun({One, Other}, Sum) -> connect(One, Other, fun none_lost/3, Sum) end, Apart, [{b, c}, {b, d}, {a, d}, {a, c}]),
    ?assertMatch(#{a := #part{peers = #{c := #peer{failed = 43}}}, c := #part{peers = #{a := #peer{failed = 43}}}}, Met),
    put(done, []),
    _ = event(c, {sync, 2}, fun none_lost/3, event(a, {sync, 1}, fun none_lost/3, Met)),
    Replies = lists:sort([{Node, From, Answer} || {Node, {reply, From, Answer}} <- get(done)]),
    ?assertEqual([{a, 1, {error, apart}}, {c, 2, {error, apart}}], Replies).

%% Pairs of nodes whose names use 150 programs each, from this one on.
full_of_programs(Pairs) ->
    Programs = fun(From) -> maps:from_list([{<<N:256>>, <<N>>} || N <- lists:seq(From, From + 149)]) end,
    Nodes = start([{Node, #{programs => Programs(From), names => 1000}} || {One, Other, From} <- Pairs, Node <- [One, Other]]),
    Register = fun({Node, N}, Parts) ->
        Name = <<"n", (integer_to_binary(N))/binary>>,
        event(Node, {call, N, {register, Name, program_row(Name, Node, N, N)}}, fun none_lost/3, Parts)
    end,
    Full = lists:foldl(Register, Nodes, [{One, N} || {One, _, From} <- Pairs, N <- lists:seq(From, From + 149)]),
    lists:foldl(fun({One, Other, _}, Sum) -> connect(One, Other, fun none_lost/3, Sum) end, Full, Pairs).

%% Nodes of two parts have one number. Both primaries learn so, and neither waits for the other.
clashing_numbers_test() ->
    Nodes = start([{a, #{}}, {b, #{number => 7}}, {c, #{}}, {d, #{number => 7}}]),
    Pairs = connect(c, d, fun none_lost/3, connect(a, b, fun none_lost/3, Nodes)),
    Met = lists:foldl(fun({One, Other}, Sum) -> connect(One, Other, fun none_lost/3, Sum) end, Pairs, [{b, c}, {b, d}, {a, d}, {a, c}]),
    ?assertMatch(#{a := #part{heal = idle, peers = #{c := #peer{failed = numbers}}}}, Met),
    ?assertMatch(#{c := #part{heal = idle, peers = #{a := #peer{failed = numbers}}}}, Met).

%% A node that the setting doesn't name is in no part, so no edit waits for it.
stranger_test() ->
    Replies = fun(Type, Nodes) ->
        Connected = event(a, {up, x, Type}, fun none_lost/3, start([{a, #{nodes => Nodes}}])),
        _ = event(a, registering(1, a), fun none_lost/3, Connected),
        [Answer || {reply, 1, Answer} <- done(a)]
    end,
    ?assertEqual([ok, ok], [Answer || Type <- [visible, hidden], Answer <- Replies(Type, [a, b])]),
    ?assertEqual([ok], Replies(hidden, any)),
    %% One that may be in a part is waited for.
    ?assertEqual([], Replies(visible, any)),
    ?assertEqual([], Replies(hidden, [a, x])).

%% A node has an unregistration made after its caller was answered, and the home of the name is gone before it confirms it: the node keeps
%% nothing of it.
unconfirmed_unregistration_test() ->
    Joined = event(b, registering(1, b), fun none_lost/3, joined_three()),
    Lost = fun(c, a, {request, _, _, _} = Body) -> put(request, Body), true; (_, _, _) -> false end,
    Called = event(c, {call, 7, {unregister, <<"m1">>, any}}, Lost, Joined),
    Late = event_at(2000, c, tick, Called),
    ?assertEqual([{reply, 7, {error, {timeout, unknown}}}], [Reply || Reply = {reply, 7, _} <- done(c)]),
    Silent = fun(b, c, _) -> true; (_, _, _) -> false end,
    Made = event(a, {message, c, get(request)}, Silent, Late),
    ?assertEqual(none, heal_state:owner(<<"m1">>, maps:get(c, Made))),
    #{c := #part{requested = Requested, unreleased = Unreleased}} = Made,
    ?assertEqual({#{}, #{}}, {Requested, Unreleased}).

%% A primary has no room for a name that it answers for. It restores the name once there is room.
restored_in_a_full_table_test() ->
    Two = #{own := Own} = with_names(a, 2, 2),
    Row = row(a, 9, a, 0),
    #{a := Started} = Full = start([{a, Two#{own := Own#{?NAME => Row}}}]),
    ?assertEqual(2, heal_state:count(Started)),
    Names = fun(Parts) ->
        Room = event(a, {call, 1, {unregister, <<"a1">>, any}}, fun none_lost/3, Parts),
        lists:sort(maps:keys(names(a, lists:foldl(fun(Now, Sum) -> event_at(Now, a, tick, Sum) end, Room, lists:seq(100, 5000, 100)))))
    end,
    ?assertEqual([<<"a2">>, ?NAME], Names(Full)),
    %% Its process has ended meanwhile, or somebody has unregistered it.
    ?assertEqual([<<"a2">>], Names(event(a, {died, ?NAME, heal_row:owner(Row)}, fun none_lost/3, Full))),
    ?assertEqual([<<"a2">>], Names(event(a, {call, 2, {unregister, ?NAME, any}}, fun none_lost/3, Full))).

%% It is reported late that a node had no registry, or that its registry had ended, and the next one has announced itself meanwhile. The
%% node is a member again at once.
late_report_test() ->
    Members = fun(Parts) -> [maps:get(members, heal_part:status(Part)) || Part <- maps:values(Parts)] end,
    [begin
        Joined = event(To, {Kind, Of}, fun none_lost/3, connect(a, b, fun none_lost/3, start([{a, #{}}, {b, #{}}]))),
        ?assertEqual({To, Kind, [[a, b], [a, b]]}, {To, Kind, Members(Joined)}),
        ?assertEqual(position(a, Joined), position(b, Joined))
     end || {To, Of} <- [{a, b}, {b, a}], Kind <- [absent, stopped, failed]].

%% The other registry of an exchange starts again, or a late report ends the exchange on one node. Both nodes give the exchange up at once.
exchange_of_one_node_test() ->
    IsOpen = fun(Kind) -> fun(_, _, Body) -> tuple_size(Body) >= 3 andalso element(1, Body) =:= Kind end end,
    Healed = fun(Parts) ->
        Ticked = events([{Node, tick} || Node <- [a, b, a, b]], fun none_lost/3, Parts),
        ?assertEqual(position(a, Ticked), position(b, Ticked))
    end,
    [begin
        Open = connect(a, b, IsOpen(Body), start([{a, #{}}, {b, #{}}])),
        ?assertNotEqual(position(a, Open), position(b, Open)),
        Healed(event(To, {Kind, Of}, fun none_lost/3, Open))
     end || Body <- [hello, offer, list], {To, Of} <- [{a, b}, {b, a}], Kind <- [absent, stopped, failed]],
    [Healed(started(Node, #{connected => [{Other, visible}]}, connect(a, b, IsOpen(Body), start([{a, #{}}, {b, #{}}]))))
     || Body <- [hello, offer, list, finished], {Node, Other} <- [{a, b}, {b, a}]].

%% A node refuses another one, which takes it for a node that it heals with: that one and a further node have one number, or only one of the
%% two settings names a hidden node. The other node learns so, also when its registry starts again.
refused_by_one_test() ->
    Learns = fun(Node, Of, Why, Parts) ->
        put(done, []),
        Synced = event(Node, {sync, 1}, fun none_lost/3, Parts),
        ?assertEqual([{reply, 1, {error, apart}}], [Reply || Reply = {reply, _, _} <- done(Node)]),
        #{Node := #part{heal = idle, problems = Problems}} = Synced,
        ?assertMatch(#{Why := {Of, none}}, Problems)
    end,
    Numbers = fun(Of, Node) ->
        Known = connect(Of, c, fun none_lost/3, start([{Of, #{}}, {c, #{number => 7}}, {Node, #{number => 7}}])),
        connect(Of, Node, fun none_lost/3, Known)
    end,
    Again = fun(Node, Of, Type, More, Parts) -> started(Node, More#{connected => [{Of, Type}]}, Parts) end,
    [begin
        Apart = Numbers(Of, Node),
        Learns(Node, Of, numbers, Apart),
        Learns(Node, Of, numbers, Again(Node, Of, visible, #{number => 7}, Apart)),
        %% It queries that one again later.
        put(done, []),
        _ = event(Of, {message, Node, {ask, {{Node, 1}, 9}, []}}, fun none_lost/3, Apart),
        ?assertEqual([abandon || Node < Of], kinds(Of, Node))
     end || {Node, Of} <- [{d, a}, {a, d}]],
    Hidden = fun(One, Other) ->
        Parts = start([{One, #{nodes => [a, b]}}, {Other, #{}}]),
        event(One, {up, Other, hidden}, fun none_lost/3, event(Other, {up, One, hidden}, fun none_lost/3, Parts))
    end,
    [begin
        Apart = Hidden(One, Other),
        Learns(One, Other, hidden, Apart),
        Learns(One, Other, hidden, Again(One, Other, hidden, #{nodes => [a, b]}, Apart))
     end || {One, Other} <- [{a, b}, {b, a}]].

%% A node that doesn't know another one, or refuses it, answers its request to register a process.
request_of_a_stranger_test() ->
    Known = connect(b, c, fun none_lost/3, start([{b, #{}}, {c, #{number => 7}}, {d, #{number => 7}}])),
    Refused = connect(b, d, fun none_lost/3, Known),
    Options = #{stamp => 1, weight => 0, extra => <<0:128>>, resolver => notify},
    _ = event(d, {call, 1, {adopt, ?NAME, ?NAME, Options, {pid, b, 1}, b}}, fun none_lost/3, Refused),
    ?assertEqual([{reply, 1, {error, {noconnection, unknown}}}], [Reply || Reply = {reply, 1, _} <- done(d)]).

%% The process of a name has ended, which the primary doesn't know so far, and the registration is changed. Subscribers on the node of the
%% process hear of its end alone.
change_of_an_ended_process_test() ->
    Name = <<"m1">>,
    Options = #{stamp => 1, weight => 0, extra => <<0:128>>, resolver => notify},
    Joined = connect(a, b, fun none_lost/3, start([{a, #{}}, {b, #{}}])),
    ok = heal_table:create(),
    %% One of the messages of each event changes the table of b.
    Do = fun(Node, Event, Lost, Parts) ->
        put(done, []),
        Next = event(Node, Event, Lost, Parts),
        {lists:append([heard_of(Action) || Action <- done(b)]), Next}
    end,
    {First, #{b := B} = Registered} = Do(b, {call, 1, {adopt, Name, Name, Options, self(), b}}, fun none_lost/3, Joined),
    Unheard = fun(b, a, {request, _, _, _}) -> true; (_, _, _) -> false end,
    {Second, Ended} = Do(b, {died, Name, heal_state:owner(Name, B)}, Unheard, Registered),
    {Third, Changed} = Do(a, {call, 2, {change, Name, any, #{weight => 1}}}, fun none_lost/3, Ended),
    ?assertMatch(#{Name := #row{alike = {_, 1, _, _}}}, names(b, Changed)),
    Kept = heal_table:row(Name),
    true = ets:delete(heal_registry),
    ?assertEqual({[{registered, Name, self()}], [{unregistered, Name, self()}], []}, {First, Second, Third}),
    ?assertEqual(none, Kept).

%% Does what an action writes. Returns the events.
heard_of(Action) ->
    Events = heal_events:due(Action, #{self() => subscriber}),
    case Action of
        {rows, Put, Drop} -> heal_table:rows(Put, Drop);
        {ended, Name, Row} -> heal_table:ended(Name, Row);
        {hide, Name} -> heal_table:hide(Name);
        {disown, Name, _} -> heal_table:disown(Name);
        {keep_own, Rows} -> heal_table:keep_own(Rows);
        _ -> ok
    end,
    Events.
