%% @private Connects the nodes of a registry's setting, and others that it has met, while they are apart.
%%
%% A process makes each attempt, since it may take long.
-module(heal_reconnect).

-export([start/3, attempt/1, forgotten/2, attempted/2, expired/1, up/2, down/3]).
-export_type([state/0]).

-define(INTERVAL, 10000).
%% The longest interval, which a timer takes.
-define(MOST, (1 bsl 40)).
%% An attempt may not hold up edits for longer than this part of `edit_timeout'.
-define(EDIT_TIMEOUT, 5000).
%% A node that isn't in the setting is tried at each of the first intervals, then at each sixtieth, and then forgotten: after an hour and a week
%% by default.
-define(OFTEN, 360).
-define(SELDOM, 60).
-define(INTERVALS, 60480).

-record(state, {
    interval :: pos_integer() | never,
    timeout :: pos_integer(),
    %% The nodes to connect, with how many intervals are left.
    lost :: #{node() => pos_integer() | infinity},
    setting :: [node()],
    attempts = #{} :: #{reference() => node()},
    timer = none :: none | reference()
}).

-opaque state() :: #state{}.

%% Begins with the nodes of the setting, and those that an earlier registry of this node has met. Nodes that connect only when someone
%% connects them stay apart, unless the option is given.
-spec start(any | [node()], Met :: [node()], heal_registry:options()) -> state().
start(Nodes, Met, Options) ->
    Given = interval(maps:get(reconnect_interval, Options, application:get_env(heal, reconnect_interval, ?INTERVAL))),
    Interval = case {Options, application:get_env(kernel, dist_auto_connect)} of
        {#{reconnect_interval := _}, _} -> Given;
        {_, undefined} -> Given;
        {_, {ok, _}} -> never
    end,
    Setting = case Nodes of any -> []; _ -> lists:usort(Nodes) -- [node()] end,
    Timeout = maps:get(edit_timeout, Options, application:get_env(heal, edit_timeout, ?EDIT_TIMEOUT)),
    Lost = maps:merge(maps:from_keys(Met, ?INTERVALS), maps:from_keys(Setting, infinity)),
    #state{interval = Interval, timeout = Timeout div 2, setting = Setting, lost = maps:without([node() | nodes(connected)], Lost)}.

interval(Never) when Never =:= never; Never =:= 0 -> never;
interval(Time) when is_integer(Time), Time > 0, Time =< ?MOST -> Time;
interval(Value) -> error({bad_setting, reconnect_interval, Value}).

%% Tries to connect the nodes that are apart and returns them. The next attempt follows after the interval.
-spec attempt(state()) -> {[node()], state()}.
attempt(State = #state{interval = never}) ->
    {[], State};
attempt(State = #state{lost = Lost, attempts = Attempts}) ->
    Nodes = [Node || {Node, Left} <- maps:to_list(Lost), is_due(Left)] -- maps:values(Attempts),
    Made = maps:from_list([{connect(Node, State), Node} || Node <- Nodes]),
    {Nodes, timed(State#state{attempts = maps:merge(Attempts, Made), lost = maps:filtermap(fun less/2, Lost)})}.

is_due(infinity) -> true;
is_due(Left) -> Left > ?INTERVALS - ?OFTEN orelse Left rem ?SELDOM =:= 0.

less(_Node, 1) -> false;
less(_Node, infinity) -> true;
less(_Node, Left) -> {true, Left - 1}.

%% Returns the nodes that aren't tried again after an attempt.
-spec forgotten(Before :: state(), After :: state()) -> [node()].
forgotten(#state{lost = Before}, #state{lost = After}) ->
    maps:keys(maps:without(maps:keys(After), Before)).

connect(Node, #state{timeout = Timeout}) ->
    {Attempt, Monitor} = spawn_monitor(fun() -> net_kernel:connect_node(Node) end),
    {ok, _} = timer:kill_after(Timeout, Attempt),
    Monitor.

timed(State = #state{timer = none, lost = Lost, interval = Interval}) when Lost =/= #{} ->
    State#state{timer = erlang:start_timer(Interval, self(), reconnect)};
timed(State) ->
    State.

%% An attempt is over. Returns its node.
-spec attempted(Monitor :: reference(), state()) -> {node(), state()} | none.
attempted(Monitor, State = #state{attempts = Attempts}) ->
    case maps:take(Monitor, Attempts) of
        {Node, Rest} -> {Node, State#state{attempts = Rest}};
        error -> none
    end.

%% The timer is over.
-spec expired(state()) -> state().
expired(State) ->
    State#state{timer = none}.

%% A node is connected.
-spec up(node(), state()) -> state().
up(Node, State = #state{lost = Lost}) ->
    State#state{lost = maps:remove(Node, Lost)}.

%% A node is lost. One that the setting doesn't name stays apart if the registry hasn't met it, as a remote shell.
-spec down(node(), IsMet :: boolean(), state()) -> state().
down(_Node, _IsMet, State = #state{interval = never}) ->
    State;
down(Node, IsMet, State = #state{lost = Lost, setting = Setting}) ->
    case lists:member(Node, Setting) of
        true -> timed(State#state{lost = Lost#{Node => infinity}});
        false when IsMet -> timed(State#state{lost = Lost#{Node => ?INTERVALS}});
        false -> State
    end.
