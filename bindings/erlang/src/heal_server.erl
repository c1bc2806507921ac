%% @private The process of heal_registry: it runs heal_part, and does what that returns.
%%
%% It writes the table, sends messages, answers callers, watches the processes that this node answers for, and delivers notices.
%% It waits for no other node.
-module(heal_server).

-behaviour(gen_server).

-include("heal_replica.hrl").

-export([start_link/2, observe/3, observing/4]).
-export([init/1, handle_call/3, handle_cast/2, handle_info/2, code_change/3, format_status/1]).

-define(REGISTRY, heal_registry).
-define(NAMES, 4096).
-define(MOST_NAMES, 1048576).
-define(EDIT_TIMEOUT, 5000).
-define(EXCHANGE_TIMEOUT, 10000).
%% Milliseconds that a caller waits for the registry itself.
-define(PATIENCE, 5000).
%% The longest timeout of a setting: a call waits for two of these and the patience, and may wait for less than 2^32 milliseconds.
-define(MOST_TIMEOUT, 2_000_000_000).

-record(server, {
    part :: heal_part:part(),
    %% The position of the replica, as it is kept.
    view = none :: none | heal_replica:view(),
    operation = 0 :: non_neg_integer(),
    %% When the node started, in milliseconds.
    start :: integer(),
    %% The process that started this registry.
    parent :: pid(),
    nodes :: any | [node()],
    send :: fun((node(), term()) -> term()),
    reconnect :: heal_reconnect:state(),
    %% The processes that this node answers for.
    watched = heal_watching:new() :: heal_watching:watched(),
    heap :: heal_heap:heap(),
    %% For each connected node a process that reports the end of its registry.
    watches = #{} :: #{node() => pid()},
    subscribers = #{} :: heal_events:subscribers(),
    %% Fields of later versions follow. The folder of the setting `dir', and the process that writes there.
    dir = none :: none | file:name_all(),
    log = none :: none | {pid(), Monitor :: reference()},
    outbox = heal_outbox:new() :: heal_outbox:outbox(),
    %% Processes that have lost names, and aren't notified so far.
    losers = [] :: [{heal:name(), #row{}, heal_losers:loss()}],
    %% Processes that wait until the connection to a node takes messages again.
    waiters = #{} :: #{pid() => node()},
    %% What full connections have refused, the newest first.
    refused = [] :: [{node(), Body :: term()}],
    %% The latest pause of each node whose connection has taken messages again.
    resting = #{} :: #{node() => Pause :: reference()},
    %% Processes that have ended, with those of their names that aren't released so far.
    ended = [] :: [{pid(), [heal:name()]}]
}).

%% Milliseconds until another attempt to start the process that writes.
-define(AGAIN, 1000).
%% Milliseconds that entries which nobody waits for are kept to be sent together.
-define(TOGETHER, 1).
%% Milliseconds until a node whose connection takes messages again gets a snapshot, at least: that may fill the connection again.
-define(RESPITE, 100).
%% How many losers are notified, and names of a process that has ended released, before the next message is handled.
-define(LOSERS, 200).
-define(RELEASED, 200).
%% How much of its last message the report of a failure shows.
-define(DEPTH, 50).
%% How often to look for a registry that has failed, at least, and the milliseconds in between.
-define(ATTEMPTS, 100).
-define(PAUSE, 100).

%% Starts the process of heal_registry.
-spec start_link(Parent :: pid(), heal_registry:options()) -> gen_server:start_ret().
start_link(Parent, Options) ->
    gen_server:start_link({local, ?REGISTRY}, ?MODULE, {Parent, Options}, []).

%% @private
init({Parent, Options = #{nodes := Nodes}}) ->
    ok = heal_keeper:inherit(),
    ok = net_kernel:monitor_nodes(true, #{node_type => all}),
    Life = life(),
    Start = erlang:convert_time_unit(erlang:system_info(start_time), native, millisecond),
    Dir = dir(Options),
    Log = log(Dir),
    Settings = maps:merge(restored(Dir, Log, heal_table:restore(Life)), (settings(Life, Options))#{
        now => erlang:monotonic_time(millisecond) - Start,
        connected => [{Node, visible} || Node <- nodes(visible)] ++ [{Node, hidden} || Node <- nodes(hidden)]
    }),
    heal_table:keep_patience(maps:get(edit_timeout, Settings) + maps:get(exchange_timeout, Settings) + ?PATIENCE),
    {Actions, Part} = heal_part:new(Settings),
    State = #server{
        part = Part,
        start = Start,
        parent = Parent,
        nodes = Nodes,
        send = send(Options),
        reconnect = heal_reconnect:start(Nodes, heal_table:met(), Options),
        heap = heal_heap:new(heal_part:count(Part)),
        dir = Dir,
        log = Log
    },
    self() ! tick,
    Watching = State#server{watched = watch_all(maps:get(own, Settings, #{}))},
    {ok, connected(release_dead(logged(maps:get(programs, Settings), perform(Actions, Watching))))}.

watch_all(Own) ->
    maps:fold(fun(Name, #row{pid = Pid}, Sum) -> heal_watching:watch(Name, Pid, Sum) end, heal_watching:new(), Own).

%% A node's life begins with the table, and a registry that starts again goes on with it.
life() ->
    case heal_table:kept(life, none) of
        none ->
            Life = {node(), erlang:system_time(nanosecond)},
            ok = heal_table:keep(life, Life),
            Life;
        Life ->
            Life
    end.

settings(Life, Options = #{nodes := Nodes}) ->
    ok = heal_facts:check_numbers(),
    #{
        life => Life,
        number => heal_facts:number(node()),
        scope => maps:get(scope, Options, application:get_env(heal, scope, heal)),
        nodes => checked(Nodes),
        names => names(Options),
        world => heal_exchange,
        seq => erlang:monotonic_time(microsecond) - erlang:convert_time_unit(erlang:system_info(start_time), native, microsecond),
        edit_timeout => setting(edit_timeout, Options, ?EDIT_TIMEOUT),
        exchange_timeout => setting(exchange_timeout, Options, ?EXCHANGE_TIMEOUT)
    }.

checked(any) -> any;
checked(Nodes) when length(Nodes) > 0 ->
    case lists:member(node(), Nodes) andalso lists:all(fun is_atom/1, Nodes) of
        true -> lists:usort(Nodes);
        false -> error({bad_setting, nodes, Nodes})
    end;
checked(Nodes) -> error({bad_setting, nodes, Nodes}).

names(Options) ->
    case setting(names, Options, ?NAMES) of
        Names when Names =< ?MOST_NAMES -> Names;
        Names -> error({bad_setting, names, Names})
    end.

dir(Options) ->
    case maps:get(dir, Options, application:get_env(heal, dir, none)) of
        none -> none;
        Dir ->
            case is_binary(Dir) orelse io_lib:char_list(Dir) of
                true when Dir =/= [], Dir =/= <<>> -> filename:absname(Dir);
                _ -> error({bad_setting, dir, Dir})
            end
    end.

send(Options) ->
    case maps:get(send, Options, fun heal_wire:send/2) of
        Send when is_function(Send, 2) -> Send;
        Value -> error({bad_setting, send, Value})
    end.

setting(Key, Options, Usual) ->
    case maps:get(Key, Options, application:get_env(heal, Key, Usual)) of
        Number when is_integer(Number), Number > 0, Number =< ?MOST_TIMEOUT -> Number;
        Value -> error({bad_setting, Key, Value})
    end.

%% Watches the registries of the nodes that are connected, and connects the others of the setting.
connected(State = #server{reconnect = Reconnect}) ->
    All = lists:foldl(fun watched/2, State, nodes(connected)),
    {Attempts, Next} = heal_reconnect:attempt(Reconnect),
    lists:foldl(fun(Node, Sum) -> event({connecting, Node}, Sum) end, All#server{reconnect = Next}, Attempts).

%% ---- The disk ----

%% Starts the process that writes, unless that of an earlier registry still does.
log(none) -> none;
log(Dir) -> logging(heal_log:start(Dir, self())).

logging({ok, Log}) -> {Log, monitor(process, Log)};
logging(busy) -> erlang:send_after(?AGAIN, self(), {?REGISTRY, log}), none.

%% What a registry starts with: what it had before it failed, and what the disk has, as far as it answers.
restored(none, none, Kept) ->
    Kept;
restored(_Dir, none, Kept) ->
    Kept#{disk => {[], none}};
restored(Dir, {Log, _}, Kept = #{programs := Programs, greatest := Greatest}) ->
    case heal_log:found(Log) of
        #{programs := Found, greatest := Number, disk := Disk} ->
            Kept#{programs := maps:merge(Found, Programs), greatest := max(Number, Greatest), disk => Disk};
        none ->
            restored(Dir, none, Kept)
    end.

%% Has programs written.
logged(_Programs, State = #server{log = none}) ->
    State;
logged(Programs, State = #server{log = {Log, _}}) ->
    ok = heal_log:programs(Log, Programs),
    State.

%% The process that writes has ended: uploads that wait for it are refused.
unlogged(State = #server{dir = Dir}) ->
    _ = erlang:send_after(?AGAIN, self(), {?REGISTRY, log}),
    event({disk, [], maps:keys(heal_table:kept(programs, #{})), {heal_log:file(Dir), ended}}, State#server{log = none}).

%% ---- Calls and messages ----

%% @private
handle_call(Request, From, State) ->
    next(called(Request, From, State)).

%% @private
handle_cast(_Message, State) ->
    next(State).

%% @private
handle_info(timeout, State) ->
    {noreply, drained(State)};
handle_info(Message, State) ->
    next(informed(Message, State)).

%% Waits for the next message. What waits to be sent is sent first if none has arrived, or after some turns.
next(State = #server{outbox = Outbox}) ->
    case heal_outbox:turn(Outbox) of
        drained -> {noreply, State};
        now -> {noreply, drained(State)};
        {wait, Later} -> {noreply, State#server{outbox = Later}, 0}
    end.

called(status, From, State = #server{part = Part}) ->
    answered(From, (heal_part:status(Part))#{problems => heal_problems:all()}, State);
called(sync, From, State) ->
    event({sync, From}, State);
called({subscribe, Pid}, From, State = #server{subscribers = Subscribers}) when is_pid(Pid) ->
    answered(From, ok, State#server{subscribers = heal_events:add(Pid, Subscribers)});
called({unsubscribe, Pid}, From, State = #server{subscribers = Subscribers}) ->
    answered(From, ok, State#server{subscribers = heal_events:remove(Pid, Subscribers)});
called({edit, Edit}, From, State) ->
    case heal_wire:edit(Edit) of
        bad -> answered(From, {error, bad_edit}, State);
        Valid -> event({call, From, Valid}, released(Valid, State))
    end;
called(_Unknown, From, State) ->
    answered(From, {error, unknown_call}, State).

answered(From, Answer, State) ->
    reply(From, Answer),
    State.

informed(tick, State = #server{part = Part}) ->
    _ = erlang:send_after(heal_part:tick(Part), self(), tick),
    Next = #server{part = Now, heap = Heap} = event(tick, State),
    Next#server{heap = heal_heap:tick(heal_part:is_idle(Now), heal_part:count(Now), Heap)};
informed({nodeup, Node, _}, State) when Node =:= node() ->
    logger:error("heal_registry: this node is ~ts now; restart the application, so that its registry joins others", [Node]),
    State;
informed({nodeup, Node, #{node_type := Type}}, State) ->
    %% Edits may wait for the node.
    up(Node, Type, release_rest(State));
informed({nodedown, Node, _}, State) ->
    down(Node, State);
informed({'DOWN', Monitor, process, Pid, _}, State) ->
    ended(Monitor, Pid, State);
informed({timeout, _Timer, reconnect}, State = #server{reconnect = Reconnect}) ->
    {_Attempts, Next} = heal_reconnect:attempt(heal_reconnect:expired(Reconnect)),
    [ok = heal_table:forget({met, Node}) || Node <- heal_reconnect:forgotten(Reconnect, Next)],
    State#server{reconnect = Next};
informed({'ETS-TRANSFER', _, _, inherited}, State = #server{parent = Parent}) ->
    _ = is_process_alive(Parent) andalso heal_keeper:restart(Parent),
    State;
informed(Message, State) when element(1, Message) =:= ?REGISTRY, is_atom(element(2, Message)) ->
    own(Message, State);
informed(Message, State) ->
    message(heal_wire:read(Message), State).

%% A process that is monitored has ended.
ended(Monitor, _Pid, State = #server{log = {_, Monitor}}) ->
    unlogged(State);
ended(_Monitor, Pid, State = #server{waiters = Waiters, part = Part, resting = Resting}) when is_map_key(Pid, Waiters) ->
    {Node, Rest} = maps:take(Pid, Waiters),
    Pause = make_ref(),
    _ = erlang:send_after(max(?RESPITE, heal_state:longer(heal_part:count(Part))), self(), {?REGISTRY, rested, Node, Pause}),
    event({drained, Node}, State#server{waiters = Rest, resting = Resting#{Node => Pause}});
ended(Monitor, Pid, State = #server{reconnect = Reconnect, subscribers = Subscribers}) ->
    case heal_reconnect:attempted(Monitor, Reconnect) of
        {Node, Next} -> event({attempted, Node}, State#server{reconnect = Next});
        none -> died(Pid, State#server{subscribers = heal_events:gone(Monitor, Pid, Subscribers)})
    end.

%% Messages of this registry and of its processes.
own({?REGISTRY, ended, Node, Watch, Reason}, State = #server{watches = Watches}) ->
    case Watches of
        #{Node := Watch} -> registry_ended(Node, Reason, State#server{watches = maps:remove(Node, Watches)});
        _ -> State
    end;
own({?REGISTRY, refused}, State = #server{refused = Refused}) ->
    ByNode = maps:groups_from_list(fun({Node, _}) -> Node end, fun({_, Body}) -> unbundled(Body) end, Refused),
    lists:foldl(fun refused/2, State#server{refused = []}, maps:to_list(ByNode));
own({?REGISTRY, rested, Node, Pause}, State = #server{resting = Resting}) ->
    %% The connection may have been full again since an earlier pause began.
    case Resting of
        #{Node := Pause} -> event({rested, Node}, State#server{resting = maps:remove(Node, Resting)});
        _ -> State
    end;
own({?REGISTRY, rested, Node}, State) ->
    %% Of the version before.
    event({rested, Node}, State);
own({?REGISTRY, disk, Log, Ids, Lacking, Problem}, State = #server{log = {Log, _}}) ->
    event({disk, Ids, Lacking, Problem}, State);
own({?REGISTRY, log}, State = #server{dir = Dir, log = none}) ->
    Next = logged(heal_table:kept(programs, #{}), State#server{log = logging(heal_log:start_again(Dir, self()))}),
    kept(greatest, heal_table:kept(greatest, 0), Next);
own({?REGISTRY, post}, State = #server{outbox = Outbox}) ->
    {StartTimer, Next} = heal_outbox:expired(Outbox),
    timed_post(StartTimer, State#server{outbox = Next});
own({?REGISTRY, step, Step}, State) ->
    %% Nothing waits for it to be sent.
    event({continue, Step}, drained(State));
own({?REGISTRY, lost}, State) ->
    lost(State);
own({?REGISTRY, release}, State) ->
    release_later(true, release_first(State));
own({?REGISTRY, quiet, Changed}, State = #server{part = Part, heap = Heap}) ->
    timed(State#server{heap = heal_heap:quiet(Changed, heal_part:is_idle(Part), heal_part:count(Part), Heap)});
own(Message, State) ->
    message(heal_wire:read(Message), State).

message({ok, Node, {bundle, Bodies}}, State) when length(Bodies) >= 0 ->
    lists:foldl(fun(Body, Sum) -> body(Node, Body, Sum) end, State, Bodies);
message({ok, Node, Body}, State) ->
    body(Node, Body, State);
message({version, Node, Version}, State) ->
    event({version, Node, Version}, State);
message(error, State) ->
    State.

body(Node, Body, State) ->
    case heal_wire:body(Body) of
        {ok, Valid} -> heard(Node, Valid, State);
        error -> State
    end.

heard(Node, Body = {adopt, _, Edit}, State) ->
    event({message, Node, Body}, released(Edit, State));
heard(Node, Body = {here, Here}, State = #server{outbox = Outbox}) ->
    Bundles = maps:get(bundles, Here, false) =:= true,
    event({message, Node, Body}, watched(Node, State#server{outbox = heal_outbox:bundles(Node, Bundles, Outbox)}));
heard(Node, Body, State) when element(1, Body) =:= ask ->
    %% The registry checks which processes are gone when the offers have come.
    event({message, Node, Body}, release_rest(State));
heard(Node, Body, State) when element(1, Body) =:= hello ->
    event({message, Node, Body}, cleaned(release_rest(State)));
heard(Node, Body = {propose, _, _, _, _}, State) ->
    event({message, Node, Body}, roomy(0, release_rest(State)));
heard(Node, Body = {offer, _, _, {_, Processes, _, _}, _}, State) ->
    event({message, Node, Body}, release_dead(roomy(heal_processes:count(Processes), State)));
heard(Node, Body, State) ->
    case heal_wire:is_of_edit(Body) of
        true -> event({message, Node, Body}, State);
        false -> event({message, Node, Body}, release_dead(State))
    end.

roomy(Names, State = #server{part = Part, heap = Heap}) ->
    State#server{heap = heal_heap:roomy(max(heal_part:count(Part), Names), Heap)}.

%% Makes room for an exchange before it is open, since edits wait then.
cleaned(State = #server{part = Part, heap = Heap}) ->
    State#server{heap = heal_heap:cleaned(heal_part:count(Part), Heap)}.

timed(State = #server{part = Part, heap = Heap}) ->
    State#server{heap = heal_heap:timed(heal_part:count(Part), Heap)}.

%% ---- Upgrades ----

%% @private Takes the state of an earlier version over: the fields that it lacks are the last ones.
code_change(_Version, State, _Extra) ->
    Lacks = record_info(size, server) - tuple_size(State),
    Later = lists:nthtail(8 - Lacks, [none, none, heal_outbox:new(), [], #{}, [], #{}, []]),
    Server = #server{part = Part, subscribers = Subscribers} = list_to_tuple(tuple_to_list(State) ++ Later),
    Monitors = element(#server.watched, State),
    Relayed = lists:foldl(fun heal_events:add/2, Subscribers, maps:keys(Subscribers)),
    Upgraded = Server#server{part = heal_part:upgrade(Part), subscribers = Relayed},
    {ok, relogged(rewatched(Monitors, element(#server.heap, State), Upgraded))}.

%% @private What the report of a failure shows of the state and of the last message, which may have all rows. Its reason may have some.
format_status(Status) ->
    maps:map(fun shown/2, Status).

shown(state, #server{part = Part}) -> (heal_part:status(Part))#{names => heal_part:count(Part)};
shown(message, Message) -> unicode:characters_to_binary(io_lib:format("~0tP", [Message, ?DEPTH]));
shown(_Key, Value) -> Value.

%% A version before had a monitor for each name, and a map of the owners instead of the heap.
rewatched(Monitors, Owners, State = #server{part = Part}) when is_map(Owners) ->
    [demonitor(Monitor, [flush]) || Monitor <- maps:keys(Monitors)],
    reheaped(State#server{watched = watch_all(heal_part:own(Part))});
rewatched(_Watched, _Heap, State) ->
    reheaped(State).

%% The heap of a version before lacks fields.
reheaped(State = #server{part = Part}) ->
    State#server{heap = heal_heap:new(heal_part:count(Part))}.

%% A version before knew no folder.
relogged(State = #server{dir = none}) ->
    case dir(#{}) of
        none -> State;
        Dir -> self() ! {?REGISTRY, log}, event({disk, [], [], none}, State#server{dir = Dir})
    end;
relogged(State) ->
    State.

%% ---- Nodes ----

up(Node, Type, State = #server{reconnect = Reconnect}) ->
    event({up, Node, Type}, watched(Node, State#server{reconnect = heal_reconnect:up(Node, Reconnect)})).

down(Node, State = #server{watches = Watches, reconnect = Reconnect, outbox = Outbox, subscribers = Subscribers}) ->
    case Watches of
        #{Node := Watch} -> unlink(Watch), exit(Watch, kill);
        _ -> ok
    end,
    Lost = heal_reconnect:down(Node, heal_table:kept({met, Node}, false), Reconnect),
    event({down, Node}, empty(Node, State#server{watches = maps:remove(Node, Watches), reconnect = Lost,
                                                 outbox = heal_outbox:forget(Node, Outbox),
                                                 subscribers = heal_events:lost(Node, Subscribers)})).

%% The next connection to a node isn't full.
empty(Node, State = #server{refused = Refused, waiters = Waiters, resting = Resting}) ->
    State#server{refused = [Entry || Entry = {Of, _} <- Refused, Of =/= Node],
                 waiters = maps:filter(fun(_, Of) -> Of =/= Node end, Waiters),
                 resting = maps:remove(Node, Resting)}.

%% A connection has refused these bodies.
refused({Node, Bodies}, State) ->
    event({refused, Node, lists:append(Bodies)}, waiting(Node, State)).

unbundled({bundle, Bodies}) -> lists:reverse(Bodies);
unbundled(Body) -> [Body].

%% A process sends a message that the other registry ignores, and ends once the connection has taken it. It runs no code of this module, so
%% that it holds up no upgrade.
waiting(Node, State = #server{waiters = Waiters}) ->
    case lists:member(Node, maps:values(Waiters)) of
        true -> State;
        false ->
            {Pid, _} = spawn_monitor(erlang, send, [{?REGISTRY, Node}, heal_wire:message(nothing), [noconnect]]),
            State#server{waiters = Waiters#{Pid => Node}}
    end.

%% A process monitors the registry of a node, since a monitor waits for a node that reads slowly.
watched(Node, State = #server{watches = Watches}) when is_map_key(Node, Watches) ->
    State;
watched(Node, State = #server{watches = Watches}) ->
    State#server{watches = Watches#{Node => spawn_link(?MODULE, observe, [self(), Node, 0])}}.

%% @private Watches a registry. It may be starting, so if it isn't there, this makes up to `Attempts' further attempts.
observe(Registry, Node, Attempts) ->
    observing(Registry, Node, monitor(process, {?REGISTRY, Node}), Attempts).

%% @private A process that hibernates outlives the code that it began with.
observing(Registry, Node, Monitor, Attempts) ->
    receive
        {'DOWN', Monitor, process, _, noproc} when Attempts > 0 ->
            _ = erlang:send_after(?PAUSE, self(), again),
            observing(Registry, Node, Monitor, Attempts);
        {'DOWN', Monitor, process, _, Reason} -> Registry ! {?REGISTRY, ended, Node, self(), Reason};
        again -> observe(Registry, Node, Attempts - 1)
    after 0 ->
        erlang:hibernate(?MODULE, observing, [Registry, Node, Monitor, Attempts])
    end.

%% A registry has ended. Where it was stopped its names end too; where it failed it starts again soon.
registry_ended(Node, noproc, State) -> event({absent, Node}, State);
registry_ended(_Node, noconnection, State) -> State;
registry_ended(Node, Reason, State) when Reason =:= shutdown; Reason =:= normal; element(1, Reason) =:= shutdown ->
    event({stopped, Node}, State);
registry_ended(Node, _Failed, State = #server{watches = Watches, part = Part}) ->
    Attempts = ?ATTEMPTS + heal_state:longer(heal_part:count(Part)) div ?PAUSE,
    Watch = spawn_link(?MODULE, observe, [self(), Node, Attempts]),
    event({failed, Node}, State#server{watches = Watches#{Node => Watch}}).

%% ---- Events and actions ----

event(Event, State = #server{part = Part, start = Start}) ->
    {Actions, Next} = heal_part:handle(Event, erlang:monotonic_time(millisecond) - Start, Part),
    perform(Actions, State#server{part = Next}).

perform([], State) ->
    State;
perform(Actions, State) ->
    IsChanging = lists:any(fun changes/1, Actions),
    _ = IsChanging andalso heal_table:changing(State#server.operation),
    timed(continued(Actions, positioned(IsChanging, acts(Actions, none, State)))).

%% Returns whether an action writes rows of the half, or which programs it has.
changes({keep, Key, _}) -> Key =:= known;
changes({Kind, _, _}) -> Kind =:= rows orelse Kind =:= ended;
changes({Kind, _}) -> Kind =:= restoring;
changes(_Action) -> false.

%% A step may take a while, so nothing waits for it to be sent.
continued(Actions, State) ->
    case [Step || Step = {continue, _} <- Actions] of
        [] -> State;
        Steps -> lists:foldl(fun step/2, drained(State), Steps)
    end.

%% The node that is to hear of this one makes room too, at the same time.
step(Step = {continue, {prepare, _, _}}, State) -> event(Step, cleaned(State));
step(Step, State) -> event(Step, State).

%% Keeps the position of the replica after the rows that it has.
positioned(IsChanging, State = #server{part = Part, view = View, operation = Last}) ->
    case heal_part:position(Part) of
        {{View, Last}, _, _} ->
            _ = IsChanging andalso heal_table:keep_operation(Last),
            State;
        {{View, Operation}, _, _} ->
            ok = heal_table:keep_operation(Operation),
            State#server{operation = Operation};
        {At = {Other, Operation}, Led, Latest} ->
            ok = heal_table:keep_position(At, Led, Latest),
            State#server{view = Other, operation = Operation}
    end.

%% A body that several nodes receive is made a message once.
acts([], _Last, State) ->
    State;
acts([{send, Node, Body} | Rest], Last, State = #server{outbox = Outbox}) ->
    case heal_wire:is_of_edit(Body) of
        true ->
            {Bodies, Next} = heal_outbox:put(Node, Body, Outbox),
            {Made, Sent} = sent(Bodies, Last, State#server{outbox = Next}),
            acts(Rest, Made, Sent);
        false ->
            {Before, Next} = heal_outbox:flush(Node, Outbox),
            {_, Flushed} = sent(Before, none, State#server{outbox = Next}),
            {Made, Sent} = sent([{Node, Body}], Last, Flushed),
            acts(Rest, Made, Sent)
    end;
acts([{again, Node, Bodies} | Rest], Last, State = #server{refused = Refused}) ->
    %% What the connection has refused since goes after them.
    {Since, Others} = lists:partition(fun({Of, _}) -> Of =:= Node end, Refused),
    {_, Sent} = sent([{Node, Body} || Body <- Bodies] ++ lists:reverse(Since), none, State#server{refused = Others}),
    acts(Rest, Last, Sent);
acts([Action | Rest], Last, State = #server{subscribers = Subscribers}) ->
    %% Who hears of a change finds it in the table.
    Events = heal_events:due(Action, Subscribers),
    Next = act(Action, State),
    ok = heal_events:send(Events, Subscribers),
    acts(Rest, Last, Next).

%% Sends what waits.
drained(State = #server{outbox = Outbox}) ->
    {Bodies, Next} = heal_outbox:drain(Outbox),
    {_, Sent} = sent(Bodies, none, State#server{outbox = Next}),
    Sent.

%% Sends bodies. Returns the last one with its message.
sent(Bodies, Last, State) ->
    lists:foldl(fun sent_one/2, {Last, State}, Bodies).

%% A connection that has refused a body refuses those that follow, so that their order is kept.
sent_one({Node, Body}, {Last, State = #server{send = Send}}) ->
    case is_full(Node, State) of
        true ->
            {Last, unsent(Node, Body, State)};
        false ->
            Made = {_, Message} = case Last of {Body, _} -> Last; _ -> {Body, heal_wire:message(Body)} end,
            case Send(Node, Message) of
                nosuspend -> {Made, unsent(Node, Body, State)};
                _ -> {Made, State}
            end
    end.

is_full(_Node, #server{refused = [], waiters = Waiters}) when Waiters =:= #{} -> false;
is_full(Node, #server{refused = Refused, waiters = Waiters}) ->
    lists:keymember(Node, 1, Refused) orelse lists:member(Node, maps:values(Waiters)).

unsent(Node, Body, State = #server{refused = Refused}) ->
    _ = Refused =:= [] andalso (self() ! {?REGISTRY, refused}),
    State#server{refused = [{Node, Body} | Refused]}.

timed_post(true, State) ->
    _ = erlang:send_after(?TOGETHER, self(), {?REGISTRY, post}),
    State;
timed_post(false, State) ->
    State.

act({post, Nodes, Entries}, State = #server{outbox = Outbox}) ->
    {StartTimer, Next} = heal_outbox:post(Nodes, Entries, Outbox),
    timed_post(StartTimer, State#server{outbox = Next});
act({later, Step}, State) ->
    self() ! {?REGISTRY, step, Step},
    State;
act({rows, Put, Drop}, State = #server{heap = Heap}) ->
    ok = heal_table:rows(Put, Drop),
    State#server{heap = heal_heap:changed(length(Put) + length(Drop), Heap)};
act({hide, Name}, State) ->
    ok = heal_table:hide(Name),
    State;
act({ended, Name, Row}, State = #server{heap = Heap}) ->
    ok = heal_table:ended(Name, Row),
    State#server{heap = heal_heap:changed(1, Heap)};
act({keep, Key, Value}, State) ->
    ok = heal_table:keep(Key, Value),
    kept(Key, Value, State);
act({keep_own, Rows}, State) ->
    ok = heal_table:keep_own(Rows),
    State;
act({forget_own, Names}, State) ->
    [ok = heal_table:forget({own, Name}) || Name <- Names],
    State;
act({restoring, Rows}, State) ->
    ok = heal_table:restoring(Rows),
    State;
act({reply, From, Answer}, State) ->
    reply(From, spelled(Answer)),
    State;
act({own, Name, #row{pid = Pid}}, State = #server{watched = Watched}) ->
    State#server{watched = heal_watching:watch(Name, Pid, Watched)};
act({disown, Name, Row}, State) ->
    disown(Name, Row, State);
act({lost, Losers}, State = #server{losers = []}) ->
    lost(State#server{losers = Losers});
act({lost, Losers}, State = #server{losers = Others}) ->
    State#server{losers = Others ++ Losers};
act({problems, Problems}, State) ->
    ok = heal_problems:report(Problems),
    State;
act(_Reported, State) ->
    State.

kept(programs, Programs, State) ->
    logged(Programs, State);
kept(greatest, Number, State = #server{log = {Log, _}}) ->
    ok = heal_log:number(Log, Number),
    State;
kept(_Key, _Value, State) ->
    State.

%% A caller on another node may be hard to reach, so another process sends the answer.
reply(Caller = {Pid, _}, Answer) when node(Pid) =:= node() ->
    gen_server:reply(Caller, Answer);
reply(Caller, Answer) ->
    spawn(fun() -> gen_server:reply(Caller, Answer) end).

spelled({error, Number}) when is_integer(Number) -> {error, {Number, heal:refusal_words(Number)}};
spelled(Answer) -> Answer.

%% Notifies some losers. Other messages don't wait for the rest.
lost(State = #server{losers = Losers}) ->
    {Now, Later} = split(?LOSERS, Losers),
    _ = Later =/= [] andalso (self() ! {?REGISTRY, lost}),
    lists:foldl(fun lost/2, State#server{losers = Later}, Now).

%% One after the other, so that a registry which is killed meanwhile has notified those that it answers for no more. Since the exchange
%% this node may have come to answer for another registration of the name.
lost({Name, Row = #row{pid = Pid}, Loss}, State = #server{part = Part, watched = Watched}) ->
    ok = heal_table:disown(Name, Row),
    _ = notify(Row, Loss),
    case heal_part:own(Part) of
        #{Name := #row{pid = Pid}} -> State;
        _ -> State#server{watched = heal_watching:unwatch(Name, Pid, Watched)}
    end.

%% A process of a node without a registry may be hard to reach too.
notify(Row = #row{pid = Pid}, Loss) when node(Pid) =:= node() ->
    deliver(Row, Loss);
notify(Row, Loss) ->
    spawn(fun() -> deliver(Row, Loss) end).

deliver(#row{pid = Pid, term = Term}, {Notice = {_, Position}, Rival}) ->
    Pids = case Position of first -> {Pid, Rival}; second -> {Rival, Pid} end,
    heal_names:deliver(Term, Notice, Pids).

%% ---- Processes ----

%% This node answers for a registration no more.
disown(Name, #row{pid = Pid}, State = #server{watched = Watched}) ->
    ok = heal_table:disown(Name),
    State#server{watched = heal_watching:unwatch(Name, Pid, Watched)}.

%% A process has ended, of which this node may have watched names.
died(Pid, State = #server{watched = Watched, ended = Ended}) ->
    case heal_watching:ended(Pid, Watched) of
        {Names, Rest} -> release_later(Ended =:= [], release(Pid, Names, State#server{watched = Rest}));
        none -> State
    end.

%% Releases some names of a process that has ended. Other messages don't wait for the rest, but those of an exchange do.
release(Pid, Names, State) ->
    {Now, Later} = split(?RELEASED, Names),
    Next = #server{ended = Ended} = lists:foldl(fun(Name, Sum) -> died(Name, Pid, Sum) end, State, Now),
    Next#server{ended = [{Pid, Later} || Later =/= []] ++ Ended}.

release_later(true, State = #server{ended = [_ | _]}) -> self() ! {?REGISTRY, release}, State;
release_later(_IsDue, State) -> State.

release_first(State = #server{ended = []}) -> State;
release_first(State = #server{ended = [{Pid, Names} | Others]}) -> release(Pid, Names, State#server{ended = Others}).

release_rest(State = #server{ended = []}) -> State;
release_rest(State) -> release_rest(release_first(State)).

split(Most, List) ->
    lists:split(min(Most, length(List)), List).

died(Name, Pid, State = #server{part = Part}) ->
    case heal_part:own(Part) of
        #{Name := Row = #row{pid = Pid}} -> event({died, Name, heal_row:owner(Row)}, State);
        _ -> State
    end.

%% Releases a name whose process, of this node, is gone before its monitor reports so: a supervisor restarts it at once.
released({adopt, Name, _, _, _, _}, State = #server{part = Part}) ->
    case heal_part:own(Part) of
        #{Name := Row = #row{pid = Pid}} when node(Pid) =:= node() ->
            case is_process_alive(Pid) of
                true -> State;
                false -> event({died, Name, heal_row:owner(Row)}, State)
            end;
        _ ->
            State
    end;
released(_Edit, State) ->
    State.

%% Releases the names of the processes that are gone: this node watches them, so it has been informed.
release_dead(State) ->
    receive
        Down = {'DOWN', _, process, _, _} -> release_dead(informed(Down, State))
    after 0 ->
        release_rest(State)
    end.
