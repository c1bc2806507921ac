%% How the registries of tests send: as the plan of their node prescribes for each kind of message.
-module(heal_faults).

-export([send/2, plan/1, held/0, release/0]).

%% Milliseconds after which a full connection refuses a message.
-define(PAUSE, 5).

%% `none'; `twice': every message is sent twice; `{hold, Kind}': messages of this kind wait for release/0; `{hold_from, Kind}':
%% those that follow wait too, as on a slow connection;
%% `{lose, Kind}'; `{halt, Kind, before | later}': the node ends when it sends this kind; `{replace, Kind, Body}': this body is
%% sent; `{replace_edit, Edit}': this edit is requested; `{full, Kind}': the connection takes no message of this kind, and with `full'
%% none at all.
plan(Plan) ->
    persistent_term:put(?MODULE, Plan).

%% The body is the last element of a message. Those of a bundle are sent one by one.
send(Node, {Registry, Version, From, {bundle, Bodies}}) ->
    case [nosuspend || Body <- Bodies, nosuspend <- [send(Node, {Registry, Version, From, Body})]] of
        [] -> ok;
        _ -> nosuspend
    end;
send(Node, Message) ->
    act(persistent_term:get(?MODULE, none), kind(element(tuple_size(Message), Message)), Node, Message).

kind(Body) when is_tuple(Body) -> element(1, Body);
kind(Body) -> Body.

act(twice, _Kind, Node, Message) ->
    [deliver(Node, Message) || _ <- [1, 2]];
act({hold, Kind}, Kind, Node, Message) ->
    persistent_term:put({?MODULE, held}, held() ++ [{Node, Message}]);
act({hold_from, Kind}, Kind, Node, Message) ->
    plan(hold_all),
    act(hold_all, Kind, Node, Message);
act(hold_all, _Kind, Node, Message) ->
    persistent_term:put({?MODULE, held}, held() ++ [{Node, Message}]);
act({lose, Kind}, Kind, _Node, _Message) ->
    lost;
act({full, Kind}, Kind, Node, Message) ->
    act(full, Kind, Node, Message);
act(full, _Kind, _Node, _Message) ->
    %% A full connection also holds up the message by which the registry learns when there is room. This one lets it through at once.
    timer:sleep(?PAUSE),
    nosuspend;
act({replace, Kind, Body}, Kind, Node, Message) ->
    deliver(Node, setelement(tuple_size(Message), Message, Body));
act({replace_edit, Edit}, request, Node, Message = {_, _, _, Body}) ->
    deliver(Node, setelement(4, Message, setelement(4, Body, Edit)));
act({halt, Kind, before}, Kind, _Node, _Message) ->
    erlang:halt(0, [{flush, false}]);
act({halt, Kind, later}, Kind, Node, Message) ->
    %% The reply to a call over the same connection shows that the message arrived.
    deliver(Node, Message),
    erpc:call(Node, erlang, node, []),
    erlang:halt(0, [{flush, false}]);
act(_Other, _Kind, Node, Message) ->
    deliver(Node, Message).

deliver(Node, Message) ->
    erlang:send({heal_registry, Node}, Message, [noconnect]).

held() ->
    persistent_term:get({?MODULE, held}, []).

release() ->
    [deliver(Node, Message) || {Node, Message} <- held()],
    persistent_term:erase({?MODULE, held}).
