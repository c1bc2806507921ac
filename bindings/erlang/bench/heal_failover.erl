%% Measures how long the nodes of heal_registry need until they are one part again when one of six is killed, and when it starts again: the
%% last node, and then the primary. Also how long the longest registration takes meanwhile.
%%
%% Each node has a sixth of the names, and a client on each node that is left registers names on and on.
-module(heal_failover).

-export([main/1]).

-define(OPTIONS, #{names => 1048576, exchange_timeout => 60000, edit_timeout => 60000}).
-define(LETTERS, [a, b, c, d, e, f]).
%% How many primaries are killed, one after the other.
-define(PRIMARIES, 5).
%% Milliseconds that the clients register before a node is killed, so that entries are on their way.
-define(BEFORE, 500).

main(Names) ->
    Nodes = [heal_cluster:start(Letter, ["-kernel", "prevent_overlapping_partitions", "false"]) || Letter <- ?LETTERS],
    [heal_cluster:start_registry(It, any, ?OPTIONS) || It <- Nodes],
    heal_cluster:mesh(Nodes),
    together(Nodes),
    Count = Names div length(Nodes),
    [heal_cluster:call(It, heal_bench, fill, [heal_registry, [Letter, $_], Count])
     || {Letter, It} <- lists:zip([atom_to_list(Letter) || Letter <- ?LETTERS], Nodes)],
    together(Nodes),
    Last = lists:last(Nodes),
    Replaced = replaced("the last node", Last, Nodes -- [Last]),
    All = lists:foldl(fun(_, Left) -> primary(Left) end, Replaced, lists:seq(1, ?PRIMARIES)),
    [heal_cluster:stop(It) || It <- All],
    halt(0).

%% The primary is killed and starts again.
primary(Nodes) ->
    #{primary := Primary} = heal_cluster:status(hd(Nodes)),
    {[It], Others} = lists:partition(fun(Of) -> heal_cluster:node_of(Of) =:= Primary end, Nodes),
    replaced("the primary", It, Others).

replaced(Which, It, Others) ->
    again(Which, It, killed(Which, It, Others)).

killed(Which, It, Others) ->
    timed([Which, " is killed"], fun() -> heal_cluster:kill_node(It), Others end, Others),
    Others.

again(Which, It, Others) ->
    timed([Which, " starts again"], fun() ->
        Again = heal_cluster:start_again(It),
        heal_cluster:start_registry(Again, any, ?OPTIONS),
        All = [Again | Others],
        heal_cluster:mesh(All),
        All
    end, Others).

%% Prints how long it took until the nodes that `Does' returns are one part.
timed(What, Does, Others) ->
    Clients = [{It, heal_cluster:call(It, heal_bench, longest, [heal_registry])} || It <- Others],
    timer:sleep(?BEFORE),
    {Time, Nodes} = timer:tc(fun() -> Left = Does(), together(Left), Left end),
    Longest = [heal_cluster:call(It, heal_bench, stop_longest, [Client]) || {It, Client} <- Clients],
    io:format("~s: one part after ~b ms; the longest registration took ~b ms~n", [What, Time div 1000, lists:max(Longest) div 1000]),
    Nodes.

%% All nodes are in one view, with as many members.
together(Nodes) ->
    Count = length(Nodes),
    heal_cluster:eventually(fun() ->
        Views = [heal_cluster:status(It) || It <- Nodes],
        case lists:usort([{Primary, View, Members} || #{primary := Primary, view := {View, _}, members := Members} <- Views]) of
            [{_, _, All}] -> length(All) =:= Count;
            _ -> false
        end
    end).
