%% heal_registry on three to five real nodes: one part, splits, and nodes that end, hang and start again.
-module(heal_parts_tests).

-include_lib("eunit/include/eunit.hrl").

-export([read/2, look_here/1, looked_here/0]).

%% Milliseconds that a node is cut off: it waits longer than that for another primary.
-define(CUT, 300).

-define(REGISTER, {heal_registry, register}).
-define(QUICK, #{edit_timeout => 2000, exchange_timeout => 1000}).

own(It, Name) ->
    own(It, Name, #{resolver => notify}).

own(It, Name, Options) ->
    heal_cluster:own(It, ?REGISTER, Name, Options).

pid_on(Of) ->
    heal_cluster:call(Of, erlang, spawn, [heal_cluster, serve, [[]]]).

call(It, Function, Args) ->
    heal_cluster:call(It, heal_registry, Function, Args).

names(Prefix, Count) ->
    [list_to_atom(Prefix ++ integer_to_list(N)) || N <- lists:seq(1, Count)].

%% Nodes in the order of their names, the primary of the part first.
primary_first(Nodes) ->
    #{primary := Primary} = heal_cluster:status(hd(Nodes)),
    {[It], Rest} = lists:partition(fun(Of) -> heal_cluster:node_of(Of) =:= Primary end, Nodes),
    [It | Rest].

parts_test_() ->
    {inparallel, 2, [
        heal_cluster:cluster(5, #{}, fun one_table/1),
        heal_cluster:cluster(4, #{}, fun two_and_two/1),
        heal_cluster:cluster(5, #{}, fun into_three/1),
        heal_cluster:cluster(4, #{}, fun three_and_one/1),
        heal_cluster:cluster(4, ?QUICK, fun primary_ends/1),
        heal_cluster:cluster(3, ?QUICK, fun primary_comes_back/1),
        heal_cluster:cluster(3, ?QUICK, fun primary_hangs/1),
        heal_cluster:cluster(3, ?QUICK, fun member_hangs/1),
        heal_cluster:cluster(3, #{}, fun registry_fails/1),
        heal_cluster:cluster(3, #{}, fun found_at_home/1),
        heal_cluster:cluster(3, #{}, fun not_transitive/1),
        heal_cluster:cluster(3, ?QUICK, fun primary_in_the_middle/1),
        heal_cluster:cluster(3, #{}, fun others_process/1),
        heal_cluster:cluster(3, #{}, fun three_way_clash/1),
        {timeout, 240, fun by_themselves/0},
        {timeout, 240, fun met_again/0}
    ]}.

%% What a node registers is in its own table when the call returns, and soon in that of every node.
one_table(Nodes) ->
    Names = [{Name, own(It, Name)} || {It, Name} <- lists:zip(Nodes, names("n", 5))],
    [?assertEqual(Pid, call(It, whereis_name, [Name])) || {It, {Name, Pid}} <- lists:zip(Nodes, Names)],
    ?assertEqual(Names, heal_cluster:one_part(Nodes)),
    [?assertMatch({error, {30, _}}, call(It, register, [Name, pid_on(It), #{}])) || It <- Nodes, {Name, _} <- Names],
    [A, B, C, D, E] = Nodes,
    %% Each name is unregistered by another node than its own, which has it no more when the call returns.
    [begin
         ?assertEqual(ok, call(It, unregister_name, [Name])),
         ?assertEqual(undefined, call(It, whereis_name, [Name]))
     end || {It, {Name, _}} <- lists:zip([B, C, D, E, A], Names)],
    ?assertEqual([], heal_cluster:one_part(Nodes)),
    ?assertEqual([0, 0, 0, 0, 0], [call(It, count, []) || It <- Nodes]),
    [?assertEqual(ok, call(It, sync, [])) || It <- Nodes].

%% A node is cut off from its primary for a moment. The primary drops the node's names, which the node itself finds all the time.
found_at_home(Nodes) ->
    [Primary, _, It] = primary_first(Nodes),
    Names = names("n", 1000),
    Pids = heal_cluster:own_each(It, ?REGISTER, Names, #{resolver => notify}),
    Table = heal_cluster:one_part(Nodes),
    ok = heal_cluster:call(It, ?MODULE, look_here, [lists:zip(Names, Pids)]),
    true = heal_cluster:call(It, erlang, disconnect_node, [heal_cluster:node_of(Primary)]),
    heal_cluster:eventually(fun() -> call(Primary, count, []) =:= 0 end),
    timer:sleep(?CUT),
    heal_cluster:mesh(Nodes),
    ?assertEqual(Table, heal_cluster:one_part(Nodes)),
    ?assertMatch({Rounds, []} when Rounds > 0, heal_cluster:call(It, ?MODULE, looked_here, [])).

%% Looks for processes by their names again and again, until another process wants to know how often and what was not found.
look_here(Names) ->
    Caller = self(),
    _ = spawn(fun() -> register(?MODULE, self()), Caller ! looking, look(Names, 0, []) end),
    receive looking -> ok end.

look(Names, Rounds, Lacking) ->
    Lost = [Name || {Name, Pid} <- Names, heal_registry:whereis_name(Name) =/= Pid],
    receive
        {looked, Caller} -> Caller ! {looked, {Rounds, Lacking}}
    after 0 ->
        look(Names, Rounds + 1, lists:usort(Lost ++ Lacking))
    end.

looked_here() ->
    ?MODULE ! {looked, self()},
    receive {looked, Looked} -> Looked end.

%% A primary ends and starts again. The other nodes have another primary by then, and keep it.
primary_comes_back(Nodes) ->
    [First | Rest] = primary_first(Nodes),
    Kept = [{Name, own(It, Name)} || {It, Name} <- lists:zip(Rest, names("k", length(Rest)))],
    heal_cluster:kill_node(First),
    ?assertEqual(lists:sort(Kept), heal_cluster:one_part(Rest)),
    #{primary := Primary} = heal_cluster:status(hd(Rest)),
    Again = heal_cluster:start_again(First),
    heal_cluster:start_registry(Again, any, ?QUICK),
    New = own(Again, new),
    heal_cluster:mesh([Again | Rest]),
    ?assertEqual(lists:sort([{new, New} | Kept]), heal_cluster:one_part([Again | Rest])),
    [?assertMatch(#{primary := Primary}, heal_cluster:status(It)) || It <- [Again | Rest]],
    heal_cluster:stop(Again).

%% Each side goes on alone, and every name has one owner afterwards.
two_and_two(Nodes = [A, B, C, D]) ->
    Kept = own(A, kept),
    Gone = own(C, gone),
    heal_cluster:one_part(Nodes),
    heal_cluster:split_into([[A, B], [C, D]]),
    ?assertEqual([{kept, Kept}], heal_cluster:one_part([A, B])),
    ?assertEqual([{gone, Gone}], heal_cluster:one_part([C, D])),
    ok = call(D, unregister_name, [gone]),
    Clashing = names("x", 40),
    Owners = [{It, Name, own(It, Name)} || {Name, N} <- lists:zip(Clashing, lists:seq(1, 40)),
                                          It <- case N rem 2 of 0 -> [A, C]; 1 -> [B, D] end],
    heal_cluster:mesh(Nodes),
    Table = maps:from_list(heal_cluster:one_part(Nodes)),
    ?assertEqual(lists:sort([kept | Clashing]), lists:sort(maps:keys(Table))),
    notified(Owners, Table).

%% Each loser has one notice, and no winner has any.
notified(Owners, Table) ->
    {Won, Lost} = lists:partition(fun({_, Name, Pid}) -> map_get(Name, Table) =:= Pid end, Owners),
    Mails = fun() -> lists:usort([{Name, heal_cluster:mail(It, Pid)} || {It, Name, Pid} <- Lost]) end,
    heal_cluster:eventually(fun() -> not lists:keymember([], 2, Mails()) end),
    ?assertEqual([], [Mail || Mail = {Name, Messages} <- Mails(), Messages =/= [{global_name_conflict, Name}]]),
    ?assertEqual([], [Pid || {It, _, Pid} <- Won, heal_cluster:mail(It, Pid) =/= []]).

%% Five nodes are cut into three sides, which meet again all at once.
into_three(Nodes = [A, B, C, D, E]) ->
    heal_cluster:split_into([[A, B], [C, D], [E]]),
    [heal_cluster:one_part(Side) || Side <- [[A, B], [C, D], [E]]],
    Owners = [{It, Name, own(It, Name)} || Name <- names("x", 20), It <- [B, C, E]],
    Only = [{Name, own(It, Name)} || {It, Name} <- [{A, a}, {D, d}, {E, e}]],
    heal_cluster:mesh(Nodes),
    Table = maps:from_list(heal_cluster:one_part(Nodes)),
    ?assertEqual(23, map_size(Table)),
    [?assertEqual(Pid, map_get(Name, Table)) || {Name, Pid} <- Only],
    notified(Owners, Table).

%% The primary is cut off: the others go on without it, while names are registered and end.
three_and_one(Nodes) ->
    [Primary | Others] = primary_first(Nodes),
    Names = [{Name, own(It, Name)} || {It, Name} <- lists:zip(Nodes, names("n", 4))],
    heal_cluster:one_part(Nodes),
    heal_cluster:split_into([[Primary], Others]),
    heal_cluster:one_part(Others),
    heal_cluster:one_part([Primary]),
    [First, Second | _] = Others,
    Dies = own(First, dies),
    Lives = own(Second, lives),
    OnPrimary = own(Primary, alone),
    heal_cluster:kill(First, Dies),
    heal_cluster:mesh(Nodes),
    ?assertEqual(lists:sort([{alone, OnPrimary}, {lives, Lives} | Names]), heal_cluster:one_part(Nodes)),
    ?assertEqual([[]], lists:usort([heal_cluster:mail(It, Pid) || {It, {_, Pid}} <- lists:zip(Nodes, Names)])).

%% The primary's node is killed. The others have all their names, also at once, and a new run of the node joins them.
primary_ends(Nodes) ->
    [Primary | Others = [One, Other | _]] = primary_first(Nodes),
    Names = [{Name, own(It, Name)} || {It, Name} <- lists:zip(Others, names("n", 3))],
    _ = own(Primary, lost),
    heal_cluster:one_part(Nodes),
    Readers = readers(Others, Names),
    heal_cluster:kill_node(Primary),
    New = own(One, new),
    [?assertEqual(Pid, call(Other, whereis_name, [Name])) || {Name, Pid} <- Names],
    ?assertEqual(lists:sort([{new, New} | Names]), heal_cluster:one_part(Others)),
    Again = heal_cluster:start_again(Primary),
    heal_cluster:start_registry(Again, any, ?QUICK),
    heal_cluster:mesh([Again | Others]),
    Back = own(Again, lost),
    ?assertEqual(lists:sort([{lost, Back}, {new, New} | Names]), heal_cluster:one_part([Again | Others])),
    ?assertEqual([[], [], []], missed(Readers)),
    heal_cluster:stop(Again).

%% Reads names on each node all the time.
readers(Nodes, Names) ->
    [{It, heal_cluster:call(It, erlang, spawn, [?MODULE, read, [Names, []]])} || It <- Nodes].

%% Ends the readers. Returns what each has read in place of a name's process.
missed(Readers) ->
    [begin
         {ok, Missed} = heal_cluster:call(It, gen, call, [Pid, missed, stop, 10000]),
         Missed
     end || {It, Pid} <- Readers].

read(Names, Missed) ->
    receive
        {missed, {From, Tag}, stop} -> From ! {Tag, lists:usort(Missed)}
    after 1 ->
        Wrong = [{Name, Other} || {Name, Pid} <- Names, Other <- [heal_registry:whereis_name(Name)], Other =/= Pid],
        read(Names, Wrong ++ Missed)
    end.

%% Runs the function while the operating system's process of a node is stopped.
frozen(It, Call) ->
    Pid = heal_cluster:freeze(It),
    try
        Call()
    after
        heal_cluster:thaw(Pid)
    end.

%% The primary hangs. No edit waits for longer than its time, and soon the others go on without it.
primary_hangs(Nodes) ->
    [Primary | Others = [One, Other]] = primary_first(Nodes),
    Names = [{Name, own(It, Name)} || {It, Name} <- lists:zip(Nodes, names("n", 3))],
    heal_cluster:one_part(Nodes),
    More = frozen(Primary, fun() ->
        {Time, _} = timer:tc(fun() -> call(One, register, [first, pid_on(One), #{}]) end),
        ?assert(Time < 10_000_000),
        heal_cluster:eventually(fun() -> call(One, register, [second, pid_on(One), #{}]) =:= ok end),
        Third = own(Other, third),
        heal_cluster:one_part(Others),
        [{third, Third}, {second, call(One, whereis_name, [second])}]
    end),
    Table = heal_cluster:one_part(Nodes),
    ?assertEqual([], (Names ++ More) -- Table).

%% Another node hangs: edits of the others aren't delayed.
member_hangs(Nodes) ->
    [One, Hangs, Other] = primary_first(Nodes),
    Names = [{Name, own(It, Name)} || {It, Name} <- lists:zip(Nodes, names("n", 3))],
    heal_cluster:one_part(Nodes),
    More = frozen(Hangs, fun() ->
        {Time, Pids} = timer:tc(fun() -> [{Name, own(It, Name)} || {It, Name} <- [{One, one}, {Other, other}]] end),
        ?assert(Time < 1_500_000),
        Pids
    end),
    ?assertEqual(lists:sort(Names ++ More), heal_cluster:one_part(Nodes)).

%% Registries are killed and start again, the primary's too. Readers on all nodes find each name all the time.
registry_fails(Nodes) ->
    Names = [{Name, own(It, Name)} || {It, Name} <- lists:zip(Nodes, names("n", 3))],
    heal_cluster:one_part(Nodes),
    Readers = readers(Nodes, Names),
    [begin
         heal_cluster:kill_registry(It),
         [?assertEqual(Pid, call(Of, whereis_name, [Name])) || Of <- Nodes, {Name, Pid} <- Names],
         heal_cluster:start_registry(It, any, #{}),
         ?assertEqual(Names, heal_cluster:one_part(Nodes))
     end || It <- Nodes ++ Nodes],
    ?assertEqual([[], [], []], missed(Readers)),
    ?assertEqual([[]], lists:usort([heal_cluster:mail(It, Pid) || {It, {_, Pid}} <- lists:zip(Nodes, Names)])).

%% The first and the last node lose each other, and both have the one between. The two sides stay as they are, each with the
%% names of its nodes, and heal when the connection is back.
not_transitive(Nodes = [A, B, C]) ->
    Names = [{Name, own(It, Name)} || {It, Name} <- lists:zip(Nodes, names("n", 3))],
    heal_cluster:one_part(Nodes),
    heal_cluster:split(A, C),
    heal_cluster:eventually(fun() -> length(lists:append([heal_cluster:table(It) || It <- [A, C]])) =:= 3 end),
    heal_cluster:eventually(fun() -> lists:member(heal_cluster:table(B), [heal_cluster:table(It) || It <- [A, C]]) end),
    Views = fun() -> [maps:get(view, heal_cluster:status(It)) || It <- Nodes] end,
    Before = Views(),
    timer:sleep(1500),
    ?assertEqual(Before, Views()),
    heal_cluster:connect(A, C),
    ?assertEqual(Names, heal_cluster:one_part(Nodes)).

%% The primary of two nodes is connected with a third one that the other isn't connected with: all are one part, and stay so.
primary_in_the_middle(Nodes = [A, B, C]) ->
    Names = [{Name, own(It, Name)} || {It, Name} <- lists:zip(Nodes, names("n", 3))],
    heal_cluster:split_into([[It] || It <- Nodes]),
    heal_cluster:mesh([B, C]),
    heal_cluster:one_part([B, C]),
    ?assertEqual(heal_cluster:node_of(B), maps:get(primary, heal_cluster:status(C))),
    heal_cluster:connect(A, B),
    ?assertEqual(Names, heal_cluster:one_part(Nodes)),
    More = [{Name, own(It, Name)} || {It, Name} <- lists:zip(Nodes, names("o", 3))],
    ?assertEqual(Names ++ More, heal_cluster:one_part(Nodes)).

%% A process that another node registers belongs to its own node.
others_process(Nodes = [A, B, C]) ->
    Pid = pid_on(C),
    ?assertEqual(ok, call(A, register, [one, Pid, #{weight => 3}])),
    ?assertEqual(Pid, call(A, whereis_name, [one])),
    Home = heal_cluster:node_of(C),
    heal_cluster:one_part(Nodes),
    [?assertMatch(#{name := one, pid := Pid, home := Home, weight := 3, resolver := exit}, call(It, info, [one])) || It <- Nodes],
    heal_cluster:split_into([[A, B], [C]]),
    ?assertEqual([], heal_cluster:one_part([A, B])),
    ?assertEqual([{one, Pid}], heal_cluster:one_part([C])),
    heal_cluster:mesh(Nodes),
    ?assertEqual([{one, Pid}], heal_cluster:one_part(Nodes)),
    heal_cluster:kill(C, Pid),
    ?assertEqual([], heal_cluster:one_part(Nodes)).

%% All three nodes register one name while they are apart.
three_way_clash(Nodes) ->
    heal_cluster:split_into([[It] || It <- Nodes]),
    [heal_cluster:one_part([It]) || It <- Nodes],
    Owners = [{It, db, own(It, db)} || It <- Nodes],
    All = [own(It, all, #{resolver => exit}) || It <- Nodes],
    heal_cluster:mesh(Nodes),
    Table = maps:from_list(heal_cluster:one_part(Nodes)),
    notified(Owners, Table),
    Alive = fun() -> [Pid || {It, Pid} <- lists:zip(Nodes, All), heal_cluster:call(It, erlang, is_process_alive, [Pid])] end,
    heal_cluster:eventually(fun() -> Alive() =:= [map_get(all, Table)] end).

%% Five nodes with the usual settings of Erlang. Nobody connects them again after a split: they do so by themselves, and heal.
by_themselves() ->
    Nodes = [A, B, C, D, E] = [heal_cluster:start(Letter) || Letter <- [a, b, c, d, e]],
    [heal_cluster:start_registry(It, any, #{reconnect_interval => 3000}) || It <- Nodes],
    heal_cluster:mesh(Nodes),
    Names = [{Name, own(It, Name)} || {It, Name} <- lists:zip(Nodes, names("n", 5))],
    ?assertEqual(Names, heal_cluster:one_part(Nodes)),
    [heal_cluster:call(It, erlang, disconnect_node, [heal_cluster:node_of(Other)]) || It <- [D, E], Other <- [A, B, C]],
    heal_cluster:eventually(fun() -> length(heal_cluster:table(D)) =< 2 andalso length(heal_cluster:table(A)) =< 3 end),
    Owners = [{It, db, own(It, db)} || It <- [A, D]],
    Table = heal_cluster:one_part(Nodes),
    ?assertEqual([], Names -- Table),
    notified(Owners, maps:from_list(Table)),
    [heal_cluster:stop(It) || It <- Nodes].

%% A registry connects the node that it has met, also if it has failed meanwhile, and not the one that runs no registry.
met_again() ->
    Separate = ["-connect_all", "false", "-kernel", "prevent_overlapping_partitions", "false"],
    Nodes = [A, B, C] = [heal_cluster:start(Letter, Separate) || Letter <- [a, b, c]],
    Start = fun(It, Interval) -> heal_cluster:start_registry(It, any, #{reconnect_interval => Interval}) end,
    ok = Start(A, 300),
    ok = Start(B, never),
    heal_cluster:mesh(Nodes),
    heal_cluster:one_part([A, B]),
    Cut = fun() -> [heal_cluster:call(A, erlang, disconnect_node, [heal_cluster:node_of(It)]) || It <- [B, C]] end,
    Sees = fun() -> heal_cluster:call(A, erlang, nodes, []) end,
    Back = fun() -> heal_cluster:eventually(fun() -> lists:member(heal_cluster:node_of(B), Sees()) end) end,
    Cut(),
    Back(),
    heal_cluster:kill_registry(A),
    Cut(),
    ok = Start(A, 300),
    Back(),
    heal_cluster:one_part([A, B]),
    ?assertEqual([heal_cluster:node_of(B)], Sees()),
    [heal_cluster:stop(It) || It <- Nodes].
