%% Real nodes on the loopback interface, and processes on them that own names.
%%
%% The nodes are controlled over standard streams, so a test can connect and disconnect them. They connect only when a test
%% connects them.
%%
%% Most tests have two nodes, a and b. They run on two, three and five nodes: further nodes are on the side of a or of b, in a part with
%% it, and what connects, splits or compares a and b does so with their sides. The side of a is no smaller, so a leads exchanges. The environment's HEAL_NODES has other numbers.
-module(heal_cluster).

-include("../src/heal_part.hrl").

-export([start/1, start/2, start_again/1, stop/1, node_of/1, call/4, connect/2, split/2, freeze/1, thaw/1, eventually/1]).
-export([cluster/3, cluster/4, sided/5, sizes/0, all/1, mesh/1, split_into/1, one_part/1, kill_node/1, pair/2, pair/3, halves/2, start_registry/3, kill_registry/1, start_application/3]).
-export([status/1, link_of/1, table/1, own/4, own_each/4, mail/2, kill/2, joined/2, alike/2, apart/2]).
-export([serve/1, owners/3, mail_here/1, table_here/0, link_here/1, registry/2, parent/0]).

-define(PATIENCE, 60000).
-define(POLL, 5).
-define(PARENT, heal_cluster_parent).

%% ---- Nodes ----

%% Starts a node whose name begins with this letter.
start(Letter) ->
    start(Letter, []).

start(Letter, Args) ->
    run(lists:concat([Letter, "_heal_", os:getpid(), "_", erlang:unique_integer([positive])]), Args).

%% Starts a node of the same name as one that ended.
start_again(Of = {_, Node}) ->
    [Name, _] = string:split(atom_to_list(Node), "@"),
    Side = side(Of),
    Again = run(Name, separate()),
    on_sides([[case It of {_, Node} -> Again; _ -> It end || It <- Side]]),
    Again.

run(Name, Args) ->
    Path = [filename:absname(Dir) || Dir <- ["ebin", "out"]],
    Kernel = ["-kernel", "dist_auto_connect", "never", "-kernel", "inet_dist_use_interface", "{127,0,0,1}",
              "-kernel", "logger_level", "error"],
    {ok, Peer, Node} = peer:start(#{
        name => list_to_atom(Name),
        host => "127.0.0.1",
        longnames => true,
        connection => standard_io,
        wait_boot => 60000,
        args => ["-setcookie", "heal_tests", "-pa"] ++ Path ++ Kernel ++ Args,
        env => [{"ERL_EPMD_ADDRESS", "127.0.0.1"}]
    }),
    {Peer, Node}.

stop({Peer, _}) ->
    catch peer:stop(Peer),
    ok.

node_of({_, Node}) ->
    Node.

call({Peer, _}, Module, Function, Args) ->
    peer:call(Peer, Module, Function, Args, 120000).

%% Connects both sides.
connect(One, Other) ->
    mesh(lists:usort(side(One) ++ side(Other))).

%% Cuts all connections between both sides.
split(One, Other) ->
    split_into([side(One), side(Other)]).

cut(One, Other) ->
    call(One, erlang, disconnect_node, [node_of(Other)]),
    Sees = fun(It, Node) -> lists:member(Node, call(It, erlang, nodes, [])) end,
    eventually(fun() -> not Sees(One, node_of(Other)) andalso not Sees(Other, node_of(One)) end).

%% Stops the operating system's process of a node, as if its machine hung. On a busy machine its threads stop a while later.
freeze(Of) ->
    Pid = call(Of, os, getpid, []),
    "" = os:cmd("kill -STOP " ++ Pid),
    eventually(fun() -> lists:all(fun is_stopped/1, filelib:wildcard("/proc/" ++ Pid ++ "/task/*/stat")) end),
    Pid.

is_stopped(File) ->
    case file:read_file(File) of
        {ok, Stat} -> binary:match(Stat, <<") T ">>) =/= nomatch;
        {error, _} -> true
    end.

thaw(Pid) ->
    "" = os:cmd("kill -CONT " ++ Pid).

%% Waits until the condition holds: polls it, for a bounded time.
eventually(Condition) ->
    eventually(Condition, erlang:monotonic_time(millisecond) + ?PATIENCE).

eventually(Condition, End) ->
    case {Condition(), erlang:monotonic_time(millisecond) > End} of
        {true, _} -> ok;
        {_, false} -> timer:sleep(?POLL), eventually(Condition, End);
        {Last, true} -> error({never, Last})
    end.

%% ---- Registries ----

%% Runs a test on two nodes, a and b, with registries that are joined.
pair(Options, Test) ->
    pair(Options, [], Test).

pair(Options, Args, Test) ->
    two(Options, Args, fun(A, B) -> connect(A, B), joined(A, B) end, Test).

%% Runs a test on two nodes, a and b, with registries that are apart. Each message is sent as heal_faults prescribes.
halves(Options, Test) ->
    two(Options#{send => fun heal_faults:send/2}, [], fun(_, _) -> apart end, Test).

two(Options, Args, Before, Test) ->
    [sided(Count, Args, fun(It, Nodes) -> start_registry(It, Nodes, Options) end, Before, Test) || Count <- sizes()].

%% Runs a test on a and b, with these numbers of nodes.
sided(Count, Args, Start, Before, Test) ->
    Letters = lists:sublist([a, b, c, d, e], Count),
    More = case Count of 2 -> []; _ -> separate() end,
    {setup,
        fun() ->
            Nodes = [start(Letter, Args ++ More) || Letter <- Letters],
            on_sides(sides(Nodes)),
            [Start(It, Nodes) || It <- Nodes],
            Nodes
        end,
        fun(Nodes) -> [stop(It) || It <- Nodes] end,
        fun([A, B | _]) ->
            Run = fun() -> [gather(It) || It <- [A, B]], Before(A, B), Test(A, B) end,
            {lists:concat([title(Test), " on ", Count, " nodes"]), {timeout, 300, Run}}
        end}.

sizes() ->
    [list_to_integer(Count) || Count <- string:tokens(os:getenv("HEAL_NODES", "2 3 5"), " ")].

sides([A, B]) -> [[A], [B]];
sides([A, B, C]) -> [[A, C], [B]];
sides([A, B, C, D, E]) -> [[A, C, E], [B, D]].

on_sides(Sides) ->
    [persistent_term:put({?MODULE, side, node_of(It)}, Side) || Side <- Sides, It <- Side].

%% The nodes of the side of a node.
side(It) ->
    persistent_term:get({?MODULE, side, node_of(It)}, [It]).

%% All nodes on the sides of these.
all(Nodes) ->
    lists:usort(lists:append([side(It) || It <- Nodes])).

%% Connects a side, which then is in one part. Registries that connect by themselves may be in one with the other side too.
gather(It) ->
    mesh(side(It)),
    eventually(fun() -> case views(side(It)) of [#{members := Members}] -> names(side(It)) -- Members =:= []; _ -> false end end).

is_gathered(Side) ->
    Names = names(Side),
    case views(Side) of
        [#{members := Names}] -> true;
        Different -> Different
    end.

names(Nodes) ->
    lists:sort([node_of(It) || It <- Nodes]).

views(Nodes) ->
    lists:usort([maps:with([primary, view, members], status(It)) || It <- Nodes]).

%% Runs a test on this many connected nodes, whose registries are one part.
cluster(Count, Options, Test) ->
    cluster(Count, Options, [], Test).

cluster(Count, Options, Args, Test) ->
    {setup,
        fun() ->
            Nodes = [start(Letter, separate() ++ Args) || Letter <- lists:sublist([a, b, c, d, e], Count)],
            [start_registry(It, any, Options) || It <- Nodes],
            Nodes
        end,
        fun(Nodes) -> [stop(It) || It <- Nodes] end,
        fun(Nodes) -> {title(Test), {timeout, 240, fun() -> mesh(Nodes), one_part(Nodes), Test(Nodes) end}} end}.

%% Without these settings `global' disconnects nodes that others can't reach.
separate() ->
    ["-connect_all", "false", "-kernel", "prevent_overlapping_partitions", "false"].

%% Connects each node with each other one.
mesh(Nodes) ->
    [true = call(One, net_kernel, connect_node, [node_of(Other)]) || One <- Nodes, Other <- Nodes, node_of(One) < node_of(Other)],
    ok.

%% Cuts all connections between these sides.
split_into(Sides) ->
    [cut(One, Other) || Side <- Sides, Rest <- Sides, Side < Rest, One <- Side, Other <- Rest],
    ok.

%% Waits until these nodes are one part with one table of living processes. Returns the table.
one_part(Nodes) ->
    eventually(fun() -> is_gathered(Nodes) end),
    eventually(fun() ->
        case lists:usort([table(It) || It <- Nodes]) of
            [Table] -> [] =:= [Name || {Name, undefined} <- Table] andalso dead(Table, Nodes) =:= [];
            Different -> Different
        end
    end),
    table(hd(Nodes)).

%% Ends the operating system's process of a node.
kill_node(Of) ->
    "" = os:cmd("kill -9 " ++ call(Of, os, getpid, [])),
    stop(Of).

%% The name of the function that the test is.
title(Test) ->
    {name, Name} = erlang:fun_info(Test, name),
    atom_to_list(Name).

%% Starts the registry of a node, or starts it again. Options as of heal_registry:start_link/1. A process that outlives it, as a
%% supervisor does, starts it.
start_registry(Of, Nodes, Options) ->
    _ = call(Of, application, load, [heal]),
    Names = case Nodes of any -> any; _ -> [node_of(It) || It <- all(Nodes)] end,
    ok = call(Of, ?MODULE, registry, [Names, Options]).

registry(Nodes, Options) ->
    _ = whereis(?PARENT) =/= undefined orelse register(?PARENT, spawn(?MODULE, parent, [])),
    ?PARENT ! {start, self(), Options#{nodes => Nodes}},
    receive started -> ok end.

parent() ->
    process_flag(trap_exit, true),
    receive
        {start, From, Options} -> {ok, _} = heal_registry:start_link(Options), From ! started;
        {'EXIT', _, _} -> ended
    end,
    parent().

%% Kills the registry of a node.
kill_registry(Of) ->
    kill(Of, call(Of, erlang, whereis, [heal_registry])).

%% Starts the application with these nodes, and with these settings.
start_application(Of, Nodes, Settings) ->
    _ = call(Of, application, load, [heal]),
    All = [{nodes, [node_of(It) || It <- all(Nodes)]} | Settings],
    [ok = call(Of, application, set_env, [heal, Key, Value]) || {Key, Value} <- All],
    {ok, _} = call(Of, application, ensure_all_started, [heal]),
    ok.

status(Of) ->
    call(Of, heal_registry, status, []).

%% How a node is linked with the other side: as of heal_registry:status/0, but for `apart' if it is in a part with its own side alone.
link_of(Of) ->
    call(Of, ?MODULE, link_here, [[node_of(It) || It <- side(Of)]]).

link_here(Side) ->
    case {element(2, sys:get_state(heal_registry)), heal_registry:status()} of
        {#part{heal = #open{stage = {done, _, _}}}, _} -> joined;
        {#part{heal = idle}, #{members := Side}} -> apart;
        {_, #{link := Link}} -> Link
    end.

%% Every name with its process, as this node answers.
table(Of) ->
    call(Of, ?MODULE, table_here, []).

table_here() ->
    lists:sort([{Name, heal_registry:whereis_name(Name)} || Name <- heal_registry:names()]).

%% Waits until both sides are one part.
joined(One, Other) ->
    eventually(fun() -> is_gathered(all([One, Other])) end).

%% Waits until each side is a separate part.
apart(One, Other) ->
    [eventually(fun() -> is_gathered(side(It)) end) || It <- [One, Other]],
    eventually(fun() -> [link_of(It) || It <- [One, Other]] =:= [apart, apart] end).

%% Waits until both sides are joined and answer alike for every name, all of which have a live process. Returns the table.
alike(One, Other) ->
    one_part(all([One, Other])).

dead(Table, Nodes) ->
    [Pid || Of <- Nodes, {_, Pid} <- Table, node(Pid) =:= node_of(Of), not call(Of, erlang, is_process_alive, [Pid])].

%% ---- Owners ----

%% Starts a process that owns a name. Register is heal_registry:register/3 or heal_resolver:register_name/3.
own(Of, Register, Name, Options) ->
    [Pid] = own_each(Of, Register, [Name], Options),
    Pid.

own_each(Of, Register, Names, Options) ->
    call(Of, ?MODULE, owners, [Register, Names, Options]).

owners({Module, Function}, Names, Options) ->
    Pids = [spawn(?MODULE, serve, [[]]) || _ <- Names],
    [case Module:Function(Name, Pid, Options) of ok -> ok; yes -> ok end || {Name, Pid} <- lists:zip(Names, Pids)],
    Pids.

%% Keeps what it receives, the newest first.
serve(Mail) ->
    receive
        {'mail of', From, Reference} -> From ! {Reference, lists:reverse(Mail)}, serve(Mail);
        Message -> serve([Message | Mail])
    end.

%% The messages that a process received, or `dead'.
mail(Of, Pid) when is_pid(Pid) ->
    call(Of, ?MODULE, mail_here, [Pid]).

mail_here(Pid) ->
    Reference = monitor(process, Pid),
    Pid ! {'mail of', self(), Reference},
    receive
        {Reference, Mail} -> demonitor(Reference, [flush]), Mail;
        {'DOWN', Reference, _, _, _} -> dead
    end.

kill(Of, Pid) ->
    true = call(Of, erlang, exit, [Pid, kill]),
    eventually(fun() -> not call(Of, erlang, is_process_alive, [Pid]) end).
