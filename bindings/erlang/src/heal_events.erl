%% @private The processes that subscribe to what heal_registry does.
-module(heal_events).

-include("heal_replica.hrl").

-export([add/2, remove/2, gone/3, lost/2, due/2, send/2]).
-export([relay/2, relaying/1, sending/2]).
-export_type([subscribers/0, event/0]).

%% A subscriber on another node has a process here that sends it its events: sending waits for a node that reads slowly.
-type subscribers() :: #{pid() => Monitor :: reference() | {Relay :: pid(), Monitor :: reference()}}.
-type event() ::
    {registered, Name :: term(), pid()}
    | {unregistered, Name :: term(), pid()}
    | {conflict, Name :: term(), Loser :: pid(), Rival :: pid()}
    | {healed, #{with := node(), number := pos_integer(), names := non_neg_integer(), clashes := non_neg_integer(),
                 milliseconds := non_neg_integer()}}
    | {part, Primary :: node(), [node()]}
    | unsubscribed.
%% `conflict' is on the node of the loser, `healed' on the two nodes that exchanged. `unsubscribed' is the last one of a process on another
%% node for which too many events wait.

%% How many events wait for a connection at most, and the milliseconds until another attempt to send the first of them.
-define(MOST, 10000).
-define(PAUSE, 10).

%% Adds a subscriber, unless it is one. A version before had no process for one on another node.
-spec add(pid(), subscribers()) -> subscribers().
add(Pid, Subscribers) when node(Pid) =/= node(), is_reference(map_get(Pid, Subscribers)) -> add(Pid, remove(Pid, Subscribers));
add(Pid, Subscribers) when is_map_key(Pid, Subscribers) -> Subscribers;
add(Pid, Subscribers) when node(Pid) =:= node() -> Subscribers#{Pid => monitor(process, Pid)};
add(Pid, Subscribers) -> Subscribers#{Pid => spawn_monitor(?MODULE, relay, [self(), Pid])}.

%% Removes a subscriber.
-spec remove(pid(), subscribers()) -> subscribers().
remove(Pid, Subscribers) ->
    case maps:take(Pid, Subscribers) of
        {{Relay, Monitor}, Rest} -> demonitor(Monitor, [flush]), exit(Relay, kill), Rest;
        {Monitor, Rest} -> demonitor(Monitor, [flush]), Rest;
        error -> Subscribers
    end.

%% A process that is monitored has ended. If it is a subscriber, or sends one its events, that one is removed.
-spec gone(Monitor :: reference(), pid(), subscribers()) -> subscribers().
gone(Monitor, Pid, Subscribers) ->
    maps:filter(fun(_, Known) -> Known =/= Monitor andalso Known =/= {Pid, Monitor} end, Subscribers).

%% A node is lost, and with it the subscriptions of its processes.
-spec lost(node(), subscribers()) -> subscribers().
lost(Node, Subscribers) ->
    lists:foldl(fun remove/2, Subscribers, [Pid || Pid <- maps:keys(Subscribers), node(Pid) =:= Node]).

%% @private Sends a subscriber on another node its events, until it or the registry ends, or too many events wait.
relay(Registry, Pid) ->
    _ = [monitor(process, Of) || Of <- [Registry, Pid]],
    relaying(Pid).

%% @private A process that hibernates outlives the code that it began with.
relaying(Pid) ->
    receive
        {'DOWN', _, process, _, _} -> ok;
        Event -> sending(Event, Pid)
    after 0 ->
        erlang:hibernate(?MODULE, relaying, [Pid])
    end.

%% @private Sends an event once the connection takes it.
sending(Event, Pid) ->
    case erlang:send(Pid, Event, [noconnect, nosuspend]) of
        nosuspend -> waiting(Event, Pid, process_info(self(), message_queue_len));
        _ -> relaying(Pid)
    end.

%% A subscriber that lacks too many events gets none of them: it subscribes again. The process that tells it so runs no code of this module.
waiting(_Event, Pid, {message_queue_len, Count}) when Count > ?MOST ->
    _ = spawn(erlang, send, [Pid, {heal_registry, unsubscribed}, [noconnect]]),
    ok;
waiting(Event, Pid, _Few) ->
    receive
        {'DOWN', _, process, _, _} -> ok
    after ?PAUSE ->
        ?MODULE:sending(Event, Pid)
    end.

%% Returns the events of an action that isn't carried out yet, if somebody subscribes to them.
-spec due(heal_part:action(), subscribers()) -> [event()].
due(_Action, Subscribers) when Subscribers =:= #{} -> [];
due(Action, _Subscribers) -> events(Action).

%% Sends the subscribers these events.
-spec send([event()], subscribers()) -> ok.
send([], _Subscribers) ->
    ok;
send(Events, Subscribers) ->
    Receivers = receivers(Subscribers),
    [Pid ! {heal_registry, Event} || Event <- Events, Pid <- Receivers],
    ok.

receivers(Subscribers) ->
    [case Known of {Relay, _} -> Relay; _ -> Pid end || {Pid, Known} <- maps:to_list(Subscribers)].

events({rows, Put, Drop}) ->
    [Event || Name <- Drop, Event <- unregistered(Name)]
        ++ [Event || {Name, Row} <- Put, Event <- changed(Name, Row)];
events({restoring, Rows}) ->
    [Event || {Name, Row} <- Rows, Event <- changed(Name, Row)];
events({hide, Name}) ->
    unregistered(Name);
events({ended, Name, _Row}) ->
    unregistered(Name);
events({disown, Name, _Row}) ->
    [Event || heal_table:is_restoring(Name), Event <- unregistered(Name)];
events({lost, Losers}) ->
    [{conflict, Term, Pid, Rival} || {_, #row{term = Term, pid = Pid}, {_, Rival}} <- Losers];
events({healed, Facts}) ->
    [{healed, Facts}];
events({view, {{Primary, _}, _}, Nodes}) ->
    [{part, Primary, Nodes}];
events(_Other) ->
    [].

unregistered(Name) ->
    case heal_table:row(Name) of
        {ok, #row{term = Term, pid = Pid}} -> [{unregistered, Term, Pid}];
        none -> []
    end.

changed(Name, #row{term = Term, pid = Pid}) ->
    case heal_table:row(Name) of
        {ok, #row{pid = Pid}} -> [];
        {ok, #row{term = Old, pid = Before}} -> [{unregistered, Old, Before}, {registered, Term, Pid}];
        none -> [{registered, Term, Pid}]
    end.
