%% @doc A resolver for `global:register_name/3': a verified program or a built-in resolver of heal decides.
%%
%% ```
%% {ok, Id} = heal_resolver:upload(Code),
%% ok = heal_resolver:register(db, self(), #{weight => 7, resolver => {program, Id}}).
%% '''
%% It is also a module for `{via, heal_resolver, Name}'. Start the application `heal' on each node first.
%%
%% The servers of connected nodes send each other their registrations and programs, and keep them when a node disappears:
%% when `global' finds a name with two owners and calls {@link resolve/3} on one node, that node can decide by itself.
%% (`global' replicates the function with the name, and the function could carry the registration; but it calls the function
%% of one of the two owners and has no place for what the other's carries.)
-module(heal_resolver).

-behaviour(gen_server).

-export([start_link/0, upload/1, register/3, register_name/2, register_name/3, unregister_name/1, whereis_name/1, send/2]).
-export([resolve/3]).
-export([sender/1, sending/2, init/1, handle_call/3, handle_cast/2, handle_info/2]).
-export_type([reason/0]).

-compile({no_auto_import, [register/2]}).

%% How long a call of a server may take, in milliseconds.
-define(CALL, 5000).
%% How often names are compared with those of `global', how long a call may take before it counts as ended, and how long the
%% registrations of a node that is gone are kept, in milliseconds. `global' forgets the names of a node as soon as it is gone,
%% but another node may resolve them just then.
-define(SWEEP, 5000).
-define(CALL_ENDS, 60000).
-define(NODE_KEPT, 600000).
%% How many registrations a message has.
-define(CHUNK, 1000).
%% How many messages wait for a connection at most, and the milliseconds until another attempt to send the first of them.
-define(MOST, 10000).
-define(PAUSE, 10).
-define(TAKEN, 30).
-define(NO_PROGRAM, 41).

-record(state, {
    %% The monitor and the names of each process of this node that has a registration, or is getting one.
    owners = #{} :: #{pid() => {reference(), #{Name :: term() => []}}},
    %% For each connected node the process that sends to its server, and that server when it has sent `hello'.
    peers = #{} :: #{node() => {Sender :: pid(), Server :: pid() | unknown}},
    %% Nodes whose number is the one of this node.
    namesakes = [] :: [node()]
}).

-type reason() :: heal:refusal() | refused_by_global | {no_answer, node()}.

%% ---- Calls ----

%% @private
start_link() ->
    gen_server:start_link({local, ?MODULE}, ?MODULE, [], []).

%% @doc Verifies a program and keeps it on all connected nodes. Returns its id.
-spec upload(Code :: binary()) -> {ok, Id :: binary()} | {error, heal:refusal() | {no_answer, node()}}.
upload(Code) when is_binary(Code) ->
    case heal:load(Code) of
        {ok, Program} ->
            {ok, Id} = heal:program_id(Program),
            call(node(), {keep, Id, Code, Program});
        Refused ->
            Refused
    end;
upload(Code) ->
    error(badarg, [Code]).

%% @doc Registers a name of `global'. Options are `stamp', `weight', `extra' and `resolver' of {@link heal:registration()}; a
%% stamp that isn't given is the time in milliseconds. `refused_by_global' means that the process has another name; see
%% `global_multi_name_action' of kernel.
-spec register(Name :: term(), pid(), Options :: map()) -> ok | {error, reason()}.
register(Name, Pid, Options) when is_pid(Pid) ->
    All = #{resolver := Resolver} = heal_names:options(Options),
    case {global:whereis_name(Name), has_program(Resolver, node(Pid))} of
        {undefined, true} -> named(Name, Pid, call(node(Pid), {remember, Name, Pid, All}));
        {undefined, false} -> refused(?NO_PROGRAM);
        _ -> refused(?TAKEN)
    end;
register(Name, Pid, Options) ->
    error(badarg, [Name, Pid, Options]).

%% @doc Registers a name of `global' with the resolver of the application's configuration.
-spec register_name(Name :: term(), pid()) -> yes | no.
register_name(Name, Pid) ->
    register_name(Name, Pid, #{}).

%% @doc Like {@link register/3}. Logs why a name can't be registered, unless it is registered already.
-spec register_name(Name :: term(), pid(), Options :: map()) -> yes | no.
register_name(Name, Pid, Options) ->
    case register(Name, Pid, Options) of
        ok ->
            yes;
        {error, {?TAKEN, _}} ->
            no;
        {error, Reason} ->
            logger:warning("heal_resolver: ~tw isn't registered for ~w: ~p", [Name, Pid, Reason]),
            no
    end.

%% @doc Unregisters a name of `global'.
-spec unregister_name(Name :: term()) -> ok.
unregister_name(Name) ->
    Pid = global:whereis_name(Name),
    _ = global:unregister_name(Name),
    _ = [call(node(Pid), {forget, Name, Pid}) || is_pid(Pid)],
    ok.

%% @doc Returns the process of a name of `global'.
-spec whereis_name(Name :: term()) -> pid() | undefined.
whereis_name(Name) ->
    global:whereis_name(Name).

%% @doc Sends a message to the process of a name of `global'.
-spec send(Name :: term(), Message :: term()) -> pid().
send(Name, Message) ->
    global:send(Name, Message).

%% @doc Returns the owner that keeps the name, or `none', and delivers the notices to those that lose it.
-spec resolve(Name :: term(), pid(), pid()) -> pid() | none.
resolve(Name, Pid1, Pid2) when is_pid(Pid1), is_pid(Pid2) ->
    heal_verdict:resolve(Name, Pid1, Pid2);
resolve(Name, Pid1, Pid2) ->
    error(badarg, [Name, Pid1, Pid2]).

%% The registration is with the server of the process's node, which notices the end of the process.
call(Node, Request) ->
    try
        gen_server:call({?MODULE, Node}, Request, ?CALL)
    catch
        exit:{noproc, _} when Node =:= node() -> error({not_started, heal});
        exit:_ -> {error, {no_answer, Node}}
    end.

%% Does a node have the program, or can it load it from another one? If it doesn't answer, the next call shows that.
has_program({program, Id}, Node) when Node =:= node() ->
    whereis(heal_facts) =/= undefined orelse error({not_started, heal}),
    heal_facts:program(Id) =/= error;
has_program({program, Id}, Node) ->
    try
        erpc:call(Node, heal_facts, program, [Id], ?CALL) =/= error
    catch
        _:_ -> true
    end;
has_program(_Builtin, _Node) ->
    true.

named(Name, Pid, {ok, Registration}) ->
    case global:register_name(Name, Pid, fun ?MODULE:resolve/3) of
        yes ->
            _ = call(node(Pid), {registered, Name, Pid, Registration}),
            ok;
        no ->
            _ = call(node(Pid), {failed, Name, Pid, Registration}),
            case global:whereis_name(Name) of
                undefined -> {error, refused_by_global};
                _ -> refused(?TAKEN)
            end
    end;
named(_Name, _Pid, Refused) ->
    Refused.

refused(Number) ->
    {error, {Number, heal:refusal_words(Number)}}.

%% ---- The server ----

%% @private
init([]) ->
    ok = net_kernel:monitor_nodes(true),
    ok = heal_facts:outdate(),
    ok = heal_facts:check_numbers(),
    true = heal_facts:node_up(node(), heal_facts:number(node()), heal_names:uptime()),
    Own = heal_facts:names_of(node()) ++ [{Name, Pid} || {{Name, Pid, _}, _} <- heal_facts:calls()],
    Watching = lists:foldl(fun({Name, Pid}, State) -> watch(Name, Pid, State) end, #state{}, Own),
    {ok, _} = timer:send_interval(?SWEEP, sweep),
    {ok, lists:foldl(fun meet/2, Watching, nodes())}.

%% @private
handle_call({keep, Id, Code, Program}, _From, State) ->
    heal_facts:keep_program(Id, Code, Program),
    {reply, {ok, Id}, send_all({program, Code}, State)};
handle_call({remember, Name, Pid, Options}, _From, State) when node(Pid) =:= node(), is_map(Options) ->
    {reply, remember(Name, Pid, Options), watch(Name, Pid, State)};
handle_call({registered, Name, Pid, Registration}, _From, State) when node(Pid) =:= node() ->
    {reply, ok, registered(Name, Pid, Registration, State)};
handle_call({failed, Name, Pid, Registration}, _From, State) when node(Pid) =:= node() ->
    heal_facts:end_call(Name, Pid, Registration),
    {reply, ok, unwatch(Name, Pid, State)};
handle_call({forget, Name, Pid}, _From, State) when node(Pid) =:= node() ->
    {reply, ok, forget(Name, Pid, State)};
handle_call(_Request, _From, State) ->
    {reply, {error, unknown_call}, State}.

%% @private
handle_cast(_Message, State) ->
    {noreply, State}.

%% @private
handle_info({nodeup, Node}, State) when Node =:= node() ->
    {noreply, renamed(nonode@nohost, State)};
handle_info({nodeup, Node}, State) ->
    {noreply, meet(Node, State)};
handle_info({nodedown, Node}, State = #state{peers = Peers}) when is_map_key(Node, Peers) ->
    {noreply, part(Node, State)};
handle_info({nodedown, Node}, State) ->
    {noreply, renamed(Node, State)};
handle_info({?MODULE, Node, Message}, State = #state{peers = Peers}) when is_map_key(Node, Peers) ->
    heal_facts:answers(Node),
    {noreply, heard(Message, Node, State)};
handle_info({'DOWN', _, process, Pid, _}, State) ->
    {noreply, ended(Pid, State)};
handle_info(sweep, State) ->
    {noreply, sweep(State)};
handle_info(_Message, State) ->
    {noreply, State}.

%% ---- Registrations of this node ----

remember(Name, Pid, Options) ->
    Registration = heal_names:registration(heal_facts:number(node()), heal_names:serial(), Options),
    heal_facts:begin_call(Name, Pid, Registration),
    {ok, Registration}.

registered(Name, Pid, Registration, State) ->
    heal_facts:add(Name, Pid, Registration),
    heal_facts:end_call(Name, Pid, Registration),
    send_all({add, [{Name, Pid, Registration}]}, watch(Name, Pid, State)).

forget(Name, Pid, State) ->
    case heal_facts:drop(Name, Pid) of
        true -> send_all({drop, Name, Pid}, unwatch(Name, Pid, State));
        false -> State
    end.

watch(Name, Pid, State = #state{owners = Owners}) ->
    {Monitor, Names} = case Owners of #{Pid := Watched} -> Watched; _ -> {monitor(process, Pid), #{}} end,
    State#state{owners = Owners#{Pid => {Monitor, Names#{Name => []}}}}.

unwatch(Name, Pid, State = #state{owners = Owners}) ->
    case {heal_facts:has(Name, Pid), Owners} of
        {false, #{Pid := {Monitor, Names}}} ->
            unwatched(Pid, Monitor, maps:remove(Name, Names), State);
        _ ->
            State
    end.

unwatched(Pid, Monitor, Names, State = #state{owners = Owners}) when Names =:= #{} ->
    demonitor(Monitor, [flush]),
    State#state{owners = maps:remove(Pid, Owners)};
unwatched(Pid, Monitor, Names, State = #state{owners = Owners}) ->
    State#state{owners = Owners#{Pid := {Monitor, Names}}}.

ended(Pid, State = #state{owners = Owners}) ->
    case maps:take(Pid, Owners) of
        {{_, Names}, Others} ->
            [heal_facts:drop_calls(Name, Pid) || Name <- maps:keys(Names)],
            lists:foldl(fun(Name, Rest) -> forget(Name, Pid, Rest) end, State#state{owners = Others}, maps:keys(Names));
        error ->
            State
    end.

%% Forgets what `global' doesn't have, and ends calls whose caller hasn't done so.
sweep(State) ->
    Late = [Row || {Row, Age} <- heal_facts:calls(), Age > ?CALL_ENDS],
    Ended = lists:foldl(fun end_call/2, State, Late),
    Gone = [Owned || Owned = {Name, Pid} <- heal_facts:names_of(node()), global:whereis_name(Name) =/= Pid],
    [heal_facts:drop_node(Node) || {Node, Age} <- heal_facts:nodes_down(), Age > ?NODE_KEPT],
    lists:foldl(fun({Name, Pid}, Rest) -> forget(Name, Pid, Rest) end, Ended, Gone).

%% A call that got no answer may have been made again, with other options.
end_call({Name, Pid, Registration}, State) ->
    case global:whereis_name(Name) =:= Pid andalso heal_facts:is_latest(Name, Pid, Registration) of
        true ->
            registered(Name, Pid, Registration, State);
        false ->
            heal_facts:end_call(Name, Pid, Registration),
            unwatch(Name, Pid, State)
    end.

%% ---- Other nodes ----

%% A process sends to each node, since sending to a node that hangs may block.
meet(Node, State = #state{peers = Peers}) when is_map_key(Node, Peers); Node =:= node() ->
    State;
meet(Node, State = #state{peers = Peers}) ->
    Sender = spawn_link(?MODULE, sender, [Node]),
    Sender ! {send, {hello, self(), answer}},
    State#state{peers = Peers#{Node => {Sender, unknown}}}.

part(Node, State = #state{peers = Peers}) ->
    heal_facts:node_down(Node),
    {{Sender, _}, Others} = maps:take(Node, Peers),
    unlink(Sender),
    exit(Sender, kill),
    State#state{peers = Others}.

%% This node may have had that name until its distribution started or stopped.
renamed(Earlier, State) ->
    heal_facts:node_down(Earlier),
    ok = heal_facts:renamed(heal_names:uptime()),
    State.

send_all(Message, State = #state{peers = Peers}) ->
    maps:foreach(fun(_, {Sender, _}) -> Sender ! {send, Message} end, Peers),
    State.

%% @private A process that hibernates outlives the code that it began with.
sender(Node) ->
    receive
        {send, Message} -> sending(Node, [Message]);
        snapshot -> sending(Node, snapshot())
    after 0 ->
        erlang:hibernate(?MODULE, sender, [Node])
    end.

%% @private Sends messages once the connection takes them.
sending(Node, []) ->
    sender(Node);
sending(Node, Messages = [Message | Rest]) ->
    case erlang:send({?MODULE, Node}, {?MODULE, node(), Message}, [noconnect, nosuspend]) of
        nosuspend -> waiting(Node, Messages, process_info(self(), message_queue_len));
        _ -> sending(Node, Rest)
    end.

%% If too many messages wait, all that this node has goes in place of them, after those that begin the servers' dialogue.
waiting(Node, Messages, {message_queue_len, Count}) when Count > ?MOST ->
    paused(Node, [Message || Message = {hello, _, _} <- Messages] ++ greetings() ++ snapshot());
waiting(Node, Messages, _Few) ->
    paused(Node, Messages).

paused(Node, Messages) ->
    receive after ?PAUSE -> ?MODULE:sending(Node, Messages) end.

%% Takes all messages that wait, and returns those.
greetings() ->
    receive
        {send, Message = {hello, _, _}} -> [Message | greetings()];
        {send, _} -> greetings();
        snapshot -> greetings()
    after 0 ->
        []
    end.

%% All that this node has. A change that is sent later may be in it already, which does no harm.
snapshot() ->
    [{snapshot, heal_facts:number(node()), heal_names:uptime(), heal_facts:codes()} | chunks(heal_facts:rows_of(node()))].

chunks([]) ->
    [];
chunks(Rows) when length(Rows) =< ?CHUNK ->
    [{add, Rows}];
chunks(Rows) ->
    {Chunk, Rest} = lists:split(?CHUNK, Rows),
    [{add, Chunk} | chunks(Rest)].

%% A server sends `hello' when it starts and when nodes connect. It receives a snapshot, and `hello' if its own may have come
%% before the other server started.
heard({hello, Server, Answer}, Node, State = #state{peers = Peers}) ->
    case Peers of
        #{Node := {_, Server}} ->
            State;
        #{Node := {Sender, _}} ->
            [Sender ! {send, {hello, self(), no_answer}} || Answer =:= answer],
            Sender ! snapshot,
            State#state{peers = Peers#{Node := {Sender, Server}}}
    end;
heard({snapshot, Number, Uptime, Codes}, Node, State) ->
    heal_facts:drop_node(Node),
    heal_facts:node_up(Node, Number, Uptime),
    lists:foreach(fun keep/1, Codes),
    compare_numbers(Node, Number, State);
heard({add, Rows}, _Node, State) ->
    lists:foreach(fun({Name, Pid, Registration}) -> heal_facts:add(Name, Pid, Registration) end, Rows),
    State;
heard({drop, Name, Pid}, _Node, State) ->
    heal_facts:drop(Name, Pid),
    State;
heard({program, Code}, _Node, State) ->
    keep(Code),
    State;
heard(_OfALaterVersion, _Node, State) ->
    State.

keep(Code) ->
    case heal:load(Code) of
        {ok, Program} ->
            {ok, Id} = heal:program_id(Program),
            heal_facts:keep_program(Id, Code, Program);
        {error, Refusal} ->
            logger:warning("heal_resolver: another node's program is refused: ~p", [Refusal])
    end.

compare_numbers(Node, Number, State = #state{namesakes = Namesakes}) ->
    case Number =:= heal_facts:number(node()) andalso not lists:member(Node, Namesakes) of
        true ->
            logger:error("heal_resolver: ~w and ~w both have the node number ~w, so resolvers can't order their registrations "
                         "by number. Set node_numbers of the application heal alike on all nodes.", [node(), Node, Number]),
            State#state{namesakes = [Node | Namesakes]};
        false ->
            State
    end.
