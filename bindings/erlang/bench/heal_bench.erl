%% Measures heal_registry and `global' on nodes of one machine, which connect over the loopback interface. Each measurement starts its
%% nodes, since what one registry leaves behind slows the other.
%%
%% First calls of a gen_server that does nothing, on its node and from another one: no registry that asks another process makes more
%% registrations. Then, on 2, 4 and 8 nodes: registrations on the primary and on each other node, with one client and with eight; lookups;
%% memory on the node of the processes and on another one; and healings of two halves whose names all clash, by a resolver that notifies
%% the loser, while clients go on to register on both primaries and on another node. Then registrations of heal_registry next to many names.
%% At last `global' and heal_registry heal more and more clashes, as far as `global' goes. A table compares the outcome with the goals.
-module(heal_bench).

-behaviour(gen_server).

-export([main/1]).
-export([rates/4, lookups/3, fill/3, fill_for/2, spawned/1, named/3, clear/2, memory/0, answers/2, longest/1, stop_longest/1, serve/0]).
-export([init/1, handle_call/3, handle_cast/2]).

%% How long one measurement of a rate takes, the clashes that are healed, how often (more than 4,096 less often), of how many names the
%% memory is measured, next to how many others names are registered, and how long `global' may take.
-record(plan, {nodes, milliseconds, clashes, rounds, names, others, alone, limit}).

plan(full) ->
    #plan{nodes = [2, 4, 8], milliseconds = 3000, clashes = [4096, 16384], rounds = 3,
          names = [4096, 8192, 16384], others = [1000, 100000, 1000000],
          alone = [1024, 4096, 16384, 65536], limit = 600};
plan(short) ->
    #plan{nodes = [2, 4], milliseconds = 200, clashes = [512], rounds = 1, names = [1024], others = [1000, 10000], alone = [256, 1024], limit = 30}.

-define(REGISTRIES, [global, heal_registry]).
-define(OPTIONS, #{names => 1048576, exchange_timeout => 60000, edit_timeout => 60000}).

main(Mode) ->
    Plan = plan(Mode),
    io:format("~s: OTP ~s, ~p schedulers~n", [Mode, erlang:system_info(otp_release), erlang:system_info(schedulers)]),
    Before = ticks(),
    {Time, Rows} = timer:tc(fun() -> bare(Plan) ++ lists:append([on(Count, Plan) || Count <- Plan#plan.nodes]) end),
    crowded(Plan),
    alone(Plan),
    goals(Rows, Plan),
    io:format("~.1f seconds without the last series~n", [Time / 1.0e6]),
    io:format("The host took ~p percent of the processors' time.~n", [stolen(Before, ticks())]),
    halt(0).

%% The ticks of the processors so far, and those of them that the host of a virtual machine has taken.
ticks() ->
    {ok, Stat} = file:read_file("/proc/stat"),
    [<<"cpu">> | Ticks] = string:lexemes(hd(string:split(Stat, "\n")), " "),
    Times = [binary_to_integer(It) || It <- lists:sublist(Ticks, 8)],
    {lists:sum(Times), lists:last(Times)}.

stolen({All, Taken}, {AllNow, TakenNow}) ->
    round(100 * (TakenNow - Taken) / max(1, AllNow - All)).

on(Count, Plan) ->
    Edits = lists:append([with_nodes(Count, fun(Nodes) -> edits(Registry, Nodes, Plan) end) || Registry <- ?REGISTRIES]),
    Memory = [{{Count, {memory, Names, Where}, Registry}, Bytes}
              || Names <- Plan#plan.names, Registry <- ?REGISTRIES,
                 {Where, Bytes} <- lists:zip([home, other], memory(Count, Names, Registry))],
    [io:format("~p nodes: ~s takes ~.1f bytes for each of ~p names on the ~s node~n", [Count, Registry, Bytes, Names, Where])
     || {{_, {_, Names, Where}, Registry}, Bytes} <- Memory],
    Heals = [{{Count, {heal, Clashes}, Registry}, heal(Count, Clashes, Registry, Plan)} || Clashes <- Plan#plan.clashes, Registry <- ?REGISTRIES],
    [io:format("~p nodes, ~p clashes: ~s heals in ~.1f ms (least ~.1f), and the longest registration meanwhile takes~s~n",
               [Count, Clashes, Registry, Median, Least,
                lists:join(",", [io_lib:format(" ~.1f ms on the ~s", [Time, Where]) || {Where, Time} <- Longest])])
     || {{_, {heal, Clashes}, Registry}, {Median, Least, Longest}} <- Heals],
    Edits ++ Memory ++ Heals.

with_nodes(Count, Run) ->
    Nodes = [heal_cluster:start(Letter, ["-kernel", "prevent_overlapping_partitions", "false"])
             || Letter <- lists:sublist([a, b, c, d, e, f, g, h], Count)],
    try
        Run(Nodes)
    after
        [heal_cluster:stop(It) || It <- Nodes]
    end.

%% Calls this module on a node, for as long as it takes: `global' may register a hundred names a second on four nodes.
long_call({Peer, _}, Function, Args) ->
    peer:call(Peer, ?MODULE, Function, Args, infinity).

%% ---- Calls of a gen_server ----

%% The rates of calls on the node of a gen_server and from another one.
bare(Plan) ->
    with_nodes(2, fun(Nodes = [First, Other]) ->
        heal_cluster:mesh(Nodes),
        ok = heal_cluster:call(First, ?MODULE, serve, []),
        Server = {?MODULE, heal_cluster:node_of(First)},
        [{{2, {call, Where, Clients}}, rate(Server, Where, It, Clients, "calls a gen_server", 2, Plan)}
         || {Where, It} <- [{primary, First}, {other, Other}], Clients <- [1, 8]]
    end).

serve() ->
    {ok, _} = gen_server:start({local, ?MODULE}, ?MODULE, none, []),
    ok.

init(none) -> {ok, none}.

handle_call(call, _From, none) -> {reply, ok, none}.

handle_cast(_Message, none) -> {noreply, none}.

%% ---- Edits and lookups ----

edits(Registry, Nodes, Plan) ->
    Count = length(Nodes),
    [heal_cluster:start_registry(It, any, ?OPTIONS) || Registry =:= heal_registry, It <- Nodes],
    gathered(Registry, Nodes),
    Primary = primary(Registry, Nodes),
    {[First], Others = [Other | _]} = lists:partition(fun(It) -> heal_cluster:node_of(It) =:= Primary end, Nodes),
    Rates = [{{Count, {register, Where, Clients}, Registry}, slowest(Count, Registry, Where, Of, Clients, Plan)}
             || {Where, Of} <- [{primary, [First]}, {other, Others}], Clients <- [1, 8]],
    Lookups = heal_cluster:call(Other, ?MODULE, lookups, [Registry, 1000, Plan#plan.milliseconds]),
    io:format("~p nodes: ~s looks ~.2f million names up a second~n", [Count, Registry, Lookups / 1.0e6]),
    [{{Count, whereis, Registry}, Lookups} | Rates].

%% `global' has no primary.
primary(global, [First | _]) -> heal_cluster:node_of(First);
primary(heal_registry, [First | _]) -> maps:get(primary, heal_cluster:status(First)).

%% The least rate of these nodes, and the greatest p99.
slowest(Count, Registry, Where, Nodes, Clients, Plan) ->
    Seen = [rate(Registry, Where, It, Clients, [atom_to_list(Registry), " registers"], Count, Plan) || It <- Nodes],
    {Rates, Times} = lists:unzip(Seen),
    {lists:min(Rates), lists:max(Times)}.

rate(Callee, Where, It, Clients, Does, Count, #plan{milliseconds = Milliseconds}) ->
    {Rate, P99, Longest} = heal_cluster:call(It, ?MODULE, rates, [Callee, Clients, Milliseconds, Where]),
    io:format("~p nodes: ~s ~.1f times a second on ~s with ~p clients, p99 ~.2f ms, the longest ~.1f ms~n",
              [Count, Does, Rate, Where, Clients, P99, Longest]),
    {Rate, P99}.

%% Each client makes calls for a while. Returns how many a second they make, of the time that calls take, the time in milliseconds
%% within which 99 of 100 end, and the longest.
rates(Callee, Clients, Milliseconds, Where) ->
    End = erlang:monotonic_time(millisecond) + Milliseconds,
    Self = self(),
    Pids = [spawn_link(fun() -> Self ! {self(), client(Callee, {Where, N, 0}, End, [])} end) || N <- lists:seq(1, Clients)],
    Times = lists:append([receive {Pid, Of} -> Of end || Pid <- Pids]),
    Sorted = lists:sort(Times),
    {Clients * length(Times) * 1.0e9 / lists:sum(Times), lists:nth(max(1, length(Times) * 99 div 100), Sorted) / 1.0e6,
     lists:last(Sorted) / 1.0e6}.

client(Callee, {Where, N, Count}, End, Times) ->
    case erlang:monotonic_time(millisecond) >= End of
        true -> Times;
        false ->
            Name = list_to_atom(lists:concat([Where, N, "_", Count rem 1000])),
            Before = erlang:monotonic_time(nanosecond),
            ok = call(Callee, Name),
            Time = erlang:monotonic_time(nanosecond) - Before,
            undone(Callee, Name),
            client(Callee, {Where, N, Count + 1}, End, [Time | Times])
    end.

%% Registers a name, or calls a gen_server.
call(Server, _Name) when is_tuple(Server) -> gen_server:call(Server, call);
call(Registry, Name) -> yes = Registry:register_name(Name, self()), ok.

%% Unregisters the name.
undone(Server, _Name) when is_tuple(Server) -> ok;
undone(Registry, Name) -> Registry:unregister_name(Name).

%% Registrations on both of two nodes that have many names of one process, and the usual timeouts.
crowded(Plan) ->
    with_nodes(2, fun(Nodes = [First | _]) ->
        [heal_cluster:start_registry(It, any, maps:with([names], ?OPTIONS)) || It <- Nodes],
        gathered(heal_registry, Nodes),
        Owner = heal_cluster:call(First, erlang, spawn, [heal_cluster, serve, [[]]]),
        lists:foldl(fun(Count, Before) -> crowd(lists:seq(Before + 1, Count), Owner, Nodes, Plan), Count end, 0, Plan#plan.others)
    end).

crowd(Numbers, Owner, Nodes = [First | _], Plan) ->
    long_call(First, fill_for, [Owner, Numbers]),
    filled(heal_registry, {other, lists:last(Numbers)}, Nodes),
    io:format("next to ~p names:~n", [lists:last(Numbers)]),
    [rate(heal_registry, It, At, 1, "heal_registry registers", 2, Plan) || {It, At} <- lists:zip([primary, other], Nodes)].

fill_for(Owner, Numbers) ->
    [ok = heal_registry:register({other, N}, Owner, #{resolver => notify}) || N <- Numbers],
    ok.

%% Returns how many lookups a second one client makes.
lookups(Registry, Count, Milliseconds) ->
    Names = fill(Registry, "l", Count),
    End = erlang:monotonic_time(millisecond) + Milliseconds,
    {Time, Rounds} = timer:tc(fun() -> look(Registry, Names, End, 0) end),
    clear(Registry, Names),
    Rounds * Count * 1.0e6 / Time.

look(Registry, Names, End, Rounds) ->
    [Registry:whereis_name(Name) || Name <- Names],
    case erlang:monotonic_time(millisecond) >= End of true -> Rounds + 1; false -> look(Registry, Names, End, Rounds + 1) end.

%% Registers this many names, each of another process.
fill(Registry, Prefix, Count) ->
    Names = names(Prefix, Count),
    named(Registry, Names, spawned(Count)),
    Names.

names(Prefix, Count) ->
    [iolist_to_binary([Prefix, integer_to_list(N)]) || N <- lists:seq(1, Count)].

spawned(Count) ->
    [spawn(heal_cluster, serve, [[]]) || _ <- lists:seq(1, Count)].

named(Registry, Names, Pids) ->
    lists:foreach(fun({Name, Pid}) -> registered(Registry, Name, Pid) end, lists:zip(Names, Pids)).

registered(global, Name, Pid) -> yes = global:register_name(Name, Pid, fun global:random_notify_name/3);
registered(heal_registry, Name, Pid) -> ok = heal_registry:register(Name, Pid, #{resolver => notify}).

clear(Registry, Names) ->
    [exit(Pid, kill) || Name <- Names, Pid <- [Registry:whereis_name(Name)], is_pid(Pid)],
    heal_cluster:eventually(fun() -> lists:all(fun(Name) -> Registry:whereis_name(Name) =:= undefined end, Names) end).

%% ---- Memory ----

%% The bytes for each name on the node of the processes, without what these take themselves, and on another node. The nodes have made
%% nothing before, so that no heap is enlarged.
memory(Nodes, Count, Registry) ->
    with_nodes(Nodes, fun(All = [At, Other | _]) ->
        [heal_cluster:start_registry(It, any, ?OPTIONS) || Registry =:= heal_registry, It <- All],
        gathered(Registry, All),
        Names = names("m", Count),
        Pids = heal_cluster:call(At, ?MODULE, spawned, [Count]),
        Before = [heal_cluster:call(It, ?MODULE, memory, []) || It <- [At, Other]],
        long_call(At, named, [Registry, Names, Pids]),
        filled(Registry, lists:last(Names), All),
        After = [heal_cluster:call(It, ?MODULE, memory, []) || It <- [At, Other]],
        [(Now - Then) / Count || {Now, Then} <- lists:zip(After, Before)]
    end).

memory() ->
    [erlang:garbage_collect(Pid) || Pid <- processes()],
    %% Once it is quiet, the registry collects its garbage itself, which sizes its heap by what is left.
    timer:sleep(1500),
    erlang:memory(processes_used) + erlang:memory(ets) + erlang:memory(binary).

%% ---- Healing ----

heal(Count, Clashes, Registry, #plan{rounds = Most}) ->
    Rounds = max(1, min(Most, Most * 4096 div Clashes)),
    Times = [healing(Count, Clashes, Registry) || _ <- lists:seq(1, Rounds)],
    {Heals, [First | _] = Longest} = lists:unzip(Times),
    {lists:nth(Rounds div 2 + 1, lists:sort(Heals)) / 1000, lists:min(Heals) / 1000,
     [{Where, lists:max([proplists:get_value(Where, Of) || Of <- Longest]) / 1000} || {Where, _} <- First]}.

%% The time from the connection of two halves until all nodes answer alike, and those of the longest registrations meanwhile. The nodes
%% were connected before: the first connection of a node takes 60 ms, which load modules of the kernel.
healing(Count, Clashes, Registry) ->
    with_nodes(Count, fun(Nodes) ->
        {Left, Right} = lists:split(Count div 2, Nodes),
        [heal_cluster:start_registry(It, any, ?OPTIONS) || Registry =:= heal_registry, It <- Nodes],
        gathered(Registry, Nodes),
        heal_cluster:split_into([Left, Right]),
        [gathered(Registry, Half) || Half <- [Left, Right]],
        [long_call(hd(Half), fill, [Registry, "n", Clashes]) || Half <- [Left, Right]],
        [filled(Registry, lists:last(names("n", Clashes)), Half) || Half <- [Left, Right]],
        Clients = [{Where, It, heal_cluster:call(It, ?MODULE, longest, [Registry])} || {Where, It} <- places(Left, Right)],
        {Time, _} = timer:tc(fun() -> heal_cluster:mesh(Nodes), gathered(Registry, Nodes), settled(Registry, Nodes, Clashes) end),
        {Time, [{Where, heal_cluster:call(It, ?MODULE, stop_longest, [Client])} || {Where, It, Client} <- Clients]}
    end).

%% The smallest node of a half is its primary.
places(Left, Right) ->
    [{"leader", hd(Left)}, {"other primary", hd(Right)}] ++ [{"member", lists:last(Left)} || length(Left) > 1].

gathered(global, Nodes) ->
    heal_cluster:mesh(Nodes),
    [ok = heal_cluster:call(It, global, sync, []) || It <- Nodes];
gathered(heal_registry, Nodes) ->
    heal_cluster:mesh(Nodes),
    Names = [heal_cluster:node_of(It) || It <- Nodes],
    heal_cluster:eventually(fun() ->
        case lists:usort([view(heal_cluster:status(It)) || It <- Nodes]) of
            [{_, _, Names}] -> true;
            _ -> false
        end
    end).

%% The view without its last operation, which the client that goes on to register changes all the time.
view(#{primary := Primary, view := {Number, _Operation}, members := Members}) ->
    {Primary, Number, Members}.

%% Waits until all nodes have the name that was registered last.
filled(Registry, Last, Nodes) ->
    heal_cluster:eventually(fun() -> [] =:= [It || It <- Nodes, heal_cluster:call(It, Registry, whereis_name, [Last]) =:= undefined] end).

settled(Registry, Nodes, Count) ->
    heal_cluster:eventually(fun() ->
        case lists:usort([heal_cluster:call(It, ?MODULE, answers, [Registry, Count]) || It <- Nodes]) of
            [{Count, _}] -> true;
            _ -> false
        end
    end).

%% How many of the names a node knows, and a digest of their processes. The hash of a process leaves its node out, and the halves
%% have registered processes of equal numbers.
answers(Registry, Count) ->
    Pids = [Registry:whereis_name(iolist_to_binary(["n", integer_to_list(N)])) || N <- lists:seq(1, Count)],
    Known = [{node(Pid), Pid} || Pid <- Pids, is_pid(Pid)],
    {length(Known), erlang:phash2(Known)}.

%% A client that registers names until it is stopped.
longest(Registry) ->
    spawn(fun() -> register_on(Registry, 0, 0) end).

register_on(Registry, N, Longest) ->
    receive
        {stop, From} -> From ! {self(), Longest}
    after 1 ->
        Name = {longest, node(), N},
        {Time, yes} = timer:tc(fun() -> Registry:register_name(Name, self()) end),
        _ = Registry:unregister_name(Name),
        register_on(Registry, N + 1, max(Time, Longest))
    end.

stop_longest(Client) ->
    Client ! {stop, self()},
    receive {Client, Longest} -> Longest end.

%% ---- More clashes ----

%% Two nodes heal more and more clashes. `global' stops once it has taken so long.
alone(#plan{alone = Series, limit = Limit}) ->
    lists:foldl(fun(Clashes, Last) ->
        {Heal, _} = healing(2, Clashes, heal_registry),
        case Last of
            late -> io:format("~p clashes: heal_registry ~.1f ms, global not tried~n", [Clashes, Heal / 1000]), late;
            _ ->
                Global = within(Limit, fun() -> element(1, healing(2, Clashes, global)) end),
                io:format("~p clashes: heal_registry ~.1f ms, global ~s~n", [Clashes, Heal / 1000, spelled(Global, Limit)]),
                Global
        end
    end, 0, Series).

within(Seconds, Run) ->
    Self = self(),
    {Pid, Monitor} = spawn_monitor(fun() -> Self ! {self(), Run()} end),
    receive
        {Pid, Time} -> demonitor(Monitor, [flush]), Time;
        {'DOWN', Monitor, _, _, _} -> late
    after Seconds * 1000 ->
        demonitor(Monitor, [flush]),
        exit(Pid, kill),
        late
    end.

spelled(late, Limit) -> io_lib:format("more than ~p s", [Limit]);
spelled(Time, _Limit) -> io_lib:format("~.1f ms", [Time / 1000]).

%% ---- Goals ----

goals(Rows, #plan{nodes = Counts, clashes = Series, names = Sizes}) ->
    Of = fun(Key) -> proplists:get_value(Key, Rows) end,
    Rate = fun(Count, Where, Clients, Registry) -> element(1, Of({Count, {register, Where, Clients}, Registry})) end,
    io:format("~n| goal | nodes | seen | |~n|---|---|---|---|~n"),
    [goal(Words, Count, Seen, Holds) || Count <- Counts, {Words, Seen, Holds} <- [
        {io_lib:format("registrations on the ~s node at least ~p times global's, ~p clients", [Where, Least, Clients]), Times, Times >= Least}
        || {Where, Least} <- [{primary, 40}, {other, 15}], Clients <- [1, 8],
           Times <- [Rate(Count, Where, Clients, heal_registry) / Rate(Count, Where, Clients, global)]
    ] ++ [
        {io_lib:format("calls of a gen_server from the ~s node by global's registrations, ~p clients", [Where, Clients]), Times, bound}
        || Where <- [primary, other], Clients <- [1, 8],
           Times <- [element(1, Of({2, {call, Where, Clients}})) / Rate(Count, Where, Clients, global)]
    ] ++ [
        {io_lib:format("p99 under 2 ms on the ~s node with 8 clients", [Where]), P99, P99 < 2}
        || Where <- [primary, other], {_, P99} <- [Of({Count, {register, Where, 8}, heal_registry})]
    ] ++ [
        {"lookups as many as global's", Part, Part >= 1} || Part <- [Of({Count, whereis, heal_registry}) / Of({Count, whereis, global})]
    ] ++ [
        {io_lib:format("memory for each of ~p names on the ~s node at most global's", [Names, Where]), Part, Part =< 1}
        || Names <- Sizes, Where <- [home, other],
           Part <- [Of({Count, {memory, Names, Where}, heal_registry}) / Of({Count, {memory, Names, Where}, global})]
    ] ++ lists:append([
        [{io_lib:format("~p clashes in 0.05 of global's time", [Clashes]), Heals / Global, Heals / Global =< 0.05}
         | [{io_lib:format("longest registration on the ~s during ~p clashes under 100 ms", [Where, Clashes]), Time, Time < 100}
            || {Where, Time} <- Longest]]
        || Clashes <- Series, {Heals, _, Longest} <- [Of({Count, {heal, Clashes}, heal_registry})],
           {Global, _, _} <- [Of({Count, {heal, Clashes}, global})]
    ])].

goal(Words, Count, Seen, Holds) ->
    Outcome = case Holds of true -> "ok"; false -> "missed"; bound -> "no goal" end,
    io:format("| ~s | ~p | ~.3f | ~s |~n", [Words, Count, Seen / 1, Outcome]).
