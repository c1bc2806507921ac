%% @private What a node knows of registrations with heal_resolver: its own and those of the nodes that it met.
%%
%% The process of this module only keeps the tables, so they outlive a crash of heal_resolver, which fills them. Every process
%% reads them. What they lack, `find/2' and `program/1' query from connected nodes, for a bounded time. A node that doesn't
%% answer isn't queried again for a while, since `global' resolves many names in a row and holds its locks.
-module(heal_facts).

-behaviour(gen_server).

-export([start_link/0, begin_call/3, end_call/3, drop_calls/2, calls/0]).
-export([add/3, drop/2, has/2, is_latest/3, names_of/1, rows_of/1, drop_node/1]).
-export([node_up/3, node_down/1, nodes_down/0, outdate/0, renamed/1, number/1, check_numbers/0, answers/1]).
-export([keep_program/3, program/1, codes/0, find/2, is_seen/1]).
-export([known/2, code/1, sees/1]).
-export([init/1, handle_call/3, handle_cast/2]).
-export_type([row/0]).

-define(KNOWN, heal_resolver_known).
-define(CALLS, heal_resolver_calls).
-define(NODES, heal_resolver_nodes).
-define(PROGRAMS, heal_resolver_programs).
-define(SILENT, heal_resolver_silent).

%% How long nodes may take to answer, and how long a node that didn't isn't queried again, in milliseconds.
-define(ANSWER, 2000).
-define(SILENCE, 10000).

-type row() :: {Name :: term(), pid(), heal:registration()}.
-type found() :: {ok, heal:registration(), heal:facts()} | error.

%% A node: its number, since when it is up and since when it is gone, by this node's clock, and how many names it has.
-record(met, {
    node :: node(),
    number :: non_neg_integer(),
    up :: integer(),
    gone = no :: integer() | no,
    names = 0 :: non_neg_integer()
}).

start_link() ->
    gen_server:start_link({local, ?MODULE}, ?MODULE, [], []).

%% @private
init([]) ->
    [ets:new(Table, [named_table, public, {read_concurrency, true} | Options])
     || {Table, Options} <- [{?KNOWN, []}, {?CALLS, [bag]}, {?NODES, [{keypos, #met.node}]}, {?PROGRAMS, []}, {?SILENT, []}]],
    {ok, none}.

%% @private
handle_call(_Request, _From, State) ->
    {reply, {error, unknown_call}, State}.

%% @private
handle_cast(_Message, State) ->
    {noreply, State}.

%% ---- Registrations ----

%% Notes that a call is registering a name. The registration counts until the call ends only if the owner has no other one.
-spec begin_call(term(), pid(), heal:registration()) -> true.
begin_call(Name, Pid, Registration) ->
    ets:insert(?CALLS, {{Name, Pid}, Registration, now_here()}).

-spec end_call(term(), pid(), heal:registration()) -> ok.
end_call(Name, Pid, Registration) ->
    [ets:delete_object(?CALLS, Row) || Row = {_, Made, _} <- ets:lookup(?CALLS, {Name, Pid}), Made =:= Registration],
    ok.

-spec drop_calls(term(), pid()) -> true.
drop_calls(Name, Pid) ->
    ets:delete(?CALLS, {Name, Pid}).

%% Returns the calls that haven't ended, and for how many milliseconds they run.
-spec calls() -> [{row(), Age :: non_neg_integer()}].
calls() ->
    Now = now_here(),
    [{{Name, Pid, Registration}, Now - Since} || {{Name, Pid}, Registration, Since} <- ets:tab2list(?CALLS)].

-spec add(term(), pid(), heal:registration()) -> true.
add(Name, Pid, Registration) ->
    ets:member(?KNOWN, {Name, Pid}) orelse count(node(Pid), 1),
    ets:insert(?KNOWN, {{Name, Pid}, node(Pid), Registration}).

-spec drop(term(), pid()) -> boolean().
drop(Name, Pid) ->
    case ets:take(?KNOWN, {Name, Pid}) of
        [{_, Node, _}] -> count(Node, -1), true;
        [] -> false
    end.

count(Node, Change) ->
    ets:update_counter(?NODES, Node, {#met.names, Change}, #met{node = Node, number = 0, up = now_here()}).

%% Does this owner have a registration of this name, or a call that is registering it?
-spec has(term(), pid()) -> boolean().
has(Name, Pid) ->
    ets:member(?KNOWN, {Name, Pid}) orelse ets:member(?CALLS, {Name, Pid}).

%% Is this registration later than the one that is noted for the owner, if there is one?
-spec is_latest(term(), pid(), heal:registration()) -> boolean().
is_latest(Name, Pid, #{owner := {_, Serial}}) ->
    case ets:lookup(?KNOWN, {Name, Pid}) of
        [{_, _, #{owner := {_, Noted}}}] -> Serial > Noted;
        [] -> true
    end.

-spec names_of(node()) -> [{Name :: term(), pid()}].
names_of(Node) ->
    ets:select(?KNOWN, [{{'$1', Node, '_'}, [], ['$1']}]).

-spec rows_of(node()) -> [row()].
rows_of(Node) ->
    [{Name, Pid, Registration} || {{Name, Pid}, _, Registration} <- ets:match_object(?KNOWN, {'_', Node, '_'})].

-spec drop_node(node()) -> true.
drop_node(Node) ->
    ets:delete(?NODES, Node),
    ets:match_delete(?KNOWN, {'_', Node, '_'}).

%% ---- Nodes ----

%% Notes the number of a node, and its uptime in milliseconds.
-spec node_up(node(), Number :: non_neg_integer(), Uptime :: non_neg_integer()) -> true.
node_up(Node, Number, Uptime) ->
    answers(Node),
    Up = now_here() - Uptime,
    case ets:update_element(?NODES, Node, [{#met.number, Number}, {#met.up, Up}, {#met.gone, no}]) of
        true -> true;
        false -> ets:insert(?NODES, #met{node = Node, number = Number, up = Up})
    end.

-spec node_down(node()) -> boolean().
node_down(Node) ->
    ets:update_element(?NODES, Node, {#met.gone, now_here()}).

%% Notes that what this node knows of all others may be out of date, as after a crash of heal_resolver.
-spec outdate() -> ok.
outdate() ->
    [node_down(Node) || #met{node = Node} <- ets:tab2list(?NODES), Node =/= node()],
    ok.

%% Notes that this node may have another name than before: distribution has started or stopped. Its registrations follow, with the number
%% of that name.
-spec renamed(Uptime :: non_neg_integer()) -> ok.
renamed(Uptime) ->
    Number = number(node()),
    true = node_up(node(), Number, Uptime),
    IsOwn = [{'=:=', {node, '$1'}, {node}}, {'=/=', '$2', {node}}],
    lists:foreach(fun(Row) -> rename(Row, Number) end, ets:select(?KNOWN, [{{{'_', '$1'}, '$2', '_'}, IsOwn, ['$_']}])).

rename({Key, Earlier, Registration = #{owner := {_, Serial}}}, Number) ->
    ets:insert(?KNOWN, {Key, node(), Registration#{owner := {Number, Serial}}}),
    count(Earlier, -1),
    count(node(), 1).

%% Returns the nodes that are gone, and for how many milliseconds.
-spec nodes_down() -> [{node(), non_neg_integer()}].
nodes_down() ->
    Now = now_here(),
    [{Node, Now - Gone} || #met{node = Node, gone = Gone} <- ets:tab2list(?NODES), Gone =/= no].

%% The number of a node: of the configuration, or computed from its name.
-spec number(node()) -> 0..16#ffffffff.
number(Node) ->
    case application:get_env(heal, node_numbers, #{}) of
        #{Node := Number} when is_integer(Number), Number >= 0, Number =< 16#ffffffff -> Number;
        _ -> erlang:phash2(Node, 1 bsl 32)
    end.

%% Raises an error if the setting isn't a map of nodes to numbers.
-spec check_numbers() -> ok.
check_numbers() ->
    Numbers = application:get_env(heal, node_numbers, #{}),
    is_map(Numbers) andalso lists:all(fun is_numbered/1, maps:to_list(Numbers)) orelse error({bad_setting, node_numbers, Numbers}),
    ok.

is_numbered({Node, Number}) -> is_atom(Node) andalso is_integer(Number) andalso Number >= 0 andalso Number =< 16#ffffffff.

facts(Node) ->
    case ets:lookup(?NODES, Node) of
        [#met{up = Up, names = Names}] -> #{size => Names, uptime => max(0, now_here() - Up)};
        [] -> #{size => 0, uptime => 0}
    end.

now_here() ->
    erlang:monotonic_time(millisecond).

%% ---- Programs ----

-spec keep_program(Id :: binary(), Code :: binary(), heal:program()) -> true.
keep_program(Id, Code, Program) ->
    ets:insert(?PROGRAMS, {Id, Code, Program}).

-spec codes() -> [binary()].
codes() ->
    ets:select(?PROGRAMS, [{{'_', '$1', '_'}, [], ['$1']}]).

%% Returns a program that this node has, or that a connected node has.
-spec program(Id :: binary()) -> {ok, heal:program()} | error.
program(Id) ->
    case ets:lookup(?PROGRAMS, Id) of
        [{_, _, Program}] -> {ok, Program};
        [] -> loaded(Id, query(nodes(), code, [Id]))
    end.

%% Loads code that another node sent, if it is the code of this id.
loaded(Id, {ok, Code}) ->
    case heal:load(Code) of
        {ok, Program} ->
            case heal:program_id(Program) of
                {ok, Id} -> keep_program(Id, Code, Program), {ok, Program};
                _ -> error
            end;
        {error, _} ->
            error
    end;
loaded(_Id, error) ->
    error.

%% ---- Queries ----

%% Returns the registration of a name for a process, and the facts about the process's node: from this node's table if that
%% is up to date, or else from the process's node, or else from other nodes, or else from this node's table as it is.
-spec find(Name :: term(), pid()) -> found().
find(Name, Pid) ->
    case known(Name, Pid) of
        Found when node(Pid) =:= node() -> Found;
        error -> asked(Name, Pid, error);
        Found -> case is_current(node(Pid)) of true -> Found; false -> asked(Name, Pid, Found) end
    end.

%% Is the node connected, and did it send what it has?
is_current(Node) ->
    case ets:lookup(?NODES, Node) of
        [#met{gone = no}] -> true;
        _ -> false
    end.

asked(Name, Pid, Old) ->
    Node = [Node || Node <- nodes(), Node =:= node(Pid), not is_silent(Node)],
    case query(Node, known, [Name, Pid]) of
        error ->
            case Node =/= [] andalso not is_silent(node(Pid)) of
                true -> error;
                false -> asked_others(Name, Pid, Old)
            end;
        Found ->
            Found
    end.

asked_others(Name, Pid, Old) ->
    case query(nodes() -- [node(Pid)], known, [Name, Pid]) of
        error -> Old;
        Found -> Found
    end.

%% Is this node connected to that one, or to a node that is?
-spec is_seen(node()) -> boolean().
is_seen(Node) ->
    sees(Node) =:= {ok, seen} orelse query(nodes(), sees, [Node]) =:= {ok, seen}.

%% Returns what this node's table has.
-spec known(Name :: term(), pid()) -> found().
known(Name, Pid) ->
    case {ets:lookup(?KNOWN, {Name, Pid}), ets:lookup(?CALLS, {Name, Pid})} of
        {[{_, Node, Registration}], _} -> {ok, Registration, facts(Node)};
        {[], []} -> error;
        {[], Calls} -> {ok, element(2, lists:last(Calls)), facts(node(Pid))}
    end.

-spec code(Id :: binary()) -> {ok, Code :: binary()} | error.
code(Id) ->
    case ets:lookup(?PROGRAMS, Id) of
        [{_, Code, _}] -> {ok, Code};
        [] -> error
    end.

-spec sees(node()) -> {ok, seen} | error.
sees(Node) ->
    case lists:member(Node, [node() | nodes()]) of
        true -> {ok, seen};
        false -> error
    end.

%% Calls a function of this module on all nodes at once. Returns the first answer that isn't `error'. A separate process waits,
%% so that late answers reach nobody.
query(Nodes, Function, Args) ->
    Asked = [Node || Node <- Nodes, not is_silent(Node)],
    {_, Monitor} = spawn_monitor(fun() -> exit({answer, gathered(Asked, Function, Args)}) end),
    receive
        {'DOWN', Monitor, process, _, {answer, Answer}} -> Answer;
        {'DOWN', Monitor, process, _, _Crash} -> error
    end.

%% A process for each node sends, since sending to a node that hangs may block.
gathered(Nodes, Function, Args) ->
    Self = self(),
    [spawn_link(fun() -> Self ! {Node, answer(Node, Function, Args)} end) || Node <- Nodes],
    first(Nodes, now_here() + ?ANSWER).

answer(Node, Function, Args) ->
    try
        erpc:call(Node, ?MODULE, Function, Args, ?ANSWER)
    catch
        error:{erpc, _} -> silent;
        _:_ -> error
    end.

first([], _End) ->
    error;
first(Nodes, End) ->
    receive
        {Node, error} -> first(Nodes -- [Node], End);
        {Node, silent} -> note_silence(Node), first(Nodes -- [Node], End);
        {_, Answer} -> Answer
    after max(0, End - now_here()) ->
        [note_silence(Node) || Node <- Nodes],
        error
    end.

note_silence(Node) ->
    logger:warning("heal_resolver: ~w doesn't answer", [Node]),
    ets:insert(?SILENT, {Node, now_here() + ?SILENCE}).

is_silent(Node) ->
    case ets:lookup(?SILENT, Node) of
        [{_, Until}] -> now_here() < Until;
        [] -> false
    end.

%% Notes that a node answers again.
-spec answers(node()) -> true.
answers(Node) ->
    ets:delete(?SILENT, Node).
