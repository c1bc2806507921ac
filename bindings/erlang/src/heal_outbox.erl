%% @private What a registry sends for edits, by the node that it goes to: bodies that are made together go in one message.
%%
%% Bodies wait until the registry has handled the messages that have arrived, but for a few turns at most. The entries of a primary that
%% nobody on the receiving node waits for wait longer: the first one after a pause starts a timer, and later ones wait until it expires, or
%% until another body is sent to the node. Every node receives everything in the order in which it was made.
-module(heal_outbox).

-export([new/0, put/3, post/3, flush/2, expired/1, drain/1, turn/1, bundles/3, forget/2]).
-export_type([outbox/0, sent/0]).

%% How many bodies, or entries, wait for a node at most, and for how many messages that the registry handles.
-define(MOST, 100).
-define(TURNS, 16).

-record(outbox, {
    %% The bodies that wait for the registry to be done, the newest first.
    ready = #{} :: #{node() => {Count :: pos_integer(), [Body :: term()]}},
    turns = 0 :: 0..?TURNS,
    %% The entries that wait for the timer.
    posted = #{} :: #{node() => entries()},
    is_timed = false :: boolean(),
    %% The nodes that take several bodies in one message: an earlier version doesn't.
    bundling = #{} :: #{node() => true}
}).

-opaque outbox() :: #outbox{}.
%% The position of the oldest entry, their count, and the edits with the newest first.
-type entries() :: {heal_replica:position(), Count :: pos_integer(), [heal_replica:edit()]}.
%% What is to be sent now, in this order.
-type sent() :: [{node(), Body :: term()}].

%% Returns an outbox in which nothing waits.
-spec new() -> outbox().
new() -> #outbox{}.

%% Takes a body for a node. Returns what is to be sent now.
-spec put(node(), Body :: term(), outbox()) -> {sent(), outbox()}.
put(Node, Body, Outbox) ->
    Next = #outbox{ready = #{Node := {Count, _}}} = add(Node, Body, unposted(Node, Outbox)),
    if
        Count >= ?MOST -> flush(Node, Next);
        true -> {[], Next}
    end.

add(Node, Body, Outbox = #outbox{ready = Ready}) ->
    {Count, Bodies} = maps:get(Node, Ready, {0, []}),
    Outbox#outbox{ready = Ready#{Node => {Count + 1, [Body | Bodies]}}}.

%% The entries that wait for a node go before what is added.
unposted(Node, Outbox = #outbox{posted = Posted}) ->
    case Posted of
        #{Node := {At, _, Edits}} ->
            add(Node, {edit, At, lists:reverse(Edits), none, ok}, Outbox#outbox{posted = maps:remove(Node, Posted)});
        _ ->
            Outbox
    end.

%% Takes the entries of a body, for nodes where nobody waits for them. Returns whether the timer is to be started.
-spec post([node()], Body :: term(), outbox()) -> {StartTimer :: boolean(), outbox()}.
post(Nodes, Body, Outbox = #outbox{is_timed = false}) ->
    {true, lists:foldl(fun(Node, Sum) -> add(Node, Body, Sum) end, Outbox#outbox{is_timed = true}, Nodes)};
post(Nodes, {edit, At, Edits, none, _}, Outbox) ->
    {false, lists:foldl(fun(Node, Sum) -> post_one(Node, At, Edits, Sum) end, Outbox, Nodes)}.

post_one(Node, At = {View, Operation}, Edits, Outbox = #outbox{posted = Posted}) ->
    case Posted of
        #{Node := {Oldest = {View, First}, Count, Others}} when Operation =:= First + Count, Count < ?MOST ->
            Outbox#outbox{posted = Posted#{Node := {Oldest, Count + length(Edits), lists:reverse(Edits, Others)}}};
        _ ->
            Rest = #outbox{posted = Left} = unposted(Node, Outbox),
            Rest#outbox{posted = Left#{Node => {At, length(Edits), lists:reverse(Edits)}}}
    end.

%% Returns what is to be sent to a node before something else is.
-spec flush(node(), outbox()) -> {sent(), outbox()}.
flush(Node, Outbox) ->
    case unposted(Node, Outbox) of
        Next = #outbox{ready = Ready = #{Node := {_, Bodies}}} ->
            {bodies(Node, Bodies, Next), Next#outbox{ready = maps:remove(Node, Ready)}};
        Next ->
            {[], Next}
    end.

bodies(Node, [Body], _Outbox) ->
    [{Node, Body}];
bodies(Node, Bodies, #outbox{bundling = Bundling}) ->
    case Bundling of
        #{Node := true} -> [{Node, {bundle, lists:reverse(Bodies)}}];
        _ -> [{Node, Body} || Body <- lists:reverse(Bodies)]
    end.

%% The timer has expired. Returns whether it is to be started again.
-spec expired(outbox()) -> {StartTimer :: boolean(), outbox()}.
expired(Outbox = #outbox{posted = Posted}) ->
    IsTimed = Posted =/= #{},
    {IsTimed, lists:foldl(fun unposted/2, Outbox#outbox{is_timed = IsTimed}, maps:keys(Posted))}.

%% The registry has handled a message. Returns whether bodies wait, and whether they are to be sent before it handles another one.
-spec turn(outbox()) -> drained | now | {wait, outbox()}.
turn(#outbox{ready = Ready}) when Ready =:= #{} -> drained;
turn(#outbox{turns = ?TURNS}) -> now;
turn(Outbox = #outbox{turns = Turns}) -> {wait, Outbox#outbox{turns = Turns + 1}}.

%% Returns what waits for the registry.
-spec drain(outbox()) -> {sent(), outbox()}.
drain(Outbox = #outbox{ready = Ready}) ->
    {lists:append([bodies(Node, Bodies, Outbox) || {Node, {_, Bodies}} <- maps:to_list(Ready)]), Outbox#outbox{ready = #{}, turns = 0}}.

%% Notes whether a node takes several bodies in one message.
-spec bundles(node(), boolean(), outbox()) -> outbox().
bundles(Node, true, Outbox = #outbox{bundling = Bundling}) -> Outbox#outbox{bundling = Bundling#{Node => true}};
bundles(Node, false, Outbox = #outbox{bundling = Bundling}) -> Outbox#outbox{bundling = maps:remove(Node, Bundling)}.

%% A node is gone, and with it what waits for it.
-spec forget(node(), outbox()) -> outbox().
forget(Node, Outbox = #outbox{ready = Ready, posted = Posted, bundling = Bundling}) ->
    Outbox#outbox{ready = maps:remove(Node, Ready), posted = maps:remove(Node, Posted), bundling = maps:remove(Node, Bundling)}.
