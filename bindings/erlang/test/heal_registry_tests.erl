%% heal_registry on one node, and on two real nodes that are split and healed.
-module(heal_registry_tests).

-include_lib("eunit/include/eunit.hrl").

-define(REGISTER, {heal_registry, register}).
-define(LATER, "79126000000000007911380000000000b700000002000000ad21010000000000b7000000010000009500000000000000").

pair(Test) ->
    heal_cluster:pair(#{}, Test).

register_on(Of, Name, Options) ->
    heal_cluster:own(Of, ?REGISTER, Name, Options).

names(Prefix, Count) ->
    [iolist_to_binary([Prefix, integer_to_list(N)]) || N <- lists:seq(1, Count)].

heal(A, B) ->
    heal_cluster:connect(A, B),
    heal_cluster:alike(A, B).

%% ---- One node ----

alone_test_() ->
    {setup,
        fun() -> {ok, Pid} = heal_registry:start_link(#{nodes => [node()]}), Pid end,
        fun(Pid) -> unlink(Pid), gen_server:stop(Pid) end,
        [{timeout, 120, Test}
         || Test <- [fun alone/0, fun via/0, fun restarts_at_once/0, fun many_names_of_one/0, fun bad_arguments/0, fun long_journal/0]]}.

alone() ->
    Pid = spawn(heal_cluster, serve, [[]]),
    ?assertEqual(yes, heal_registry:register_name(db, Pid)),
    ?assertEqual(no, heal_registry:register_name("db", self())),
    ?assertEqual([Pid, Pid, Pid], [heal_registry:whereis_name(Name) || Name <- [db, "db", <<"db">>]]),
    ?assertEqual(Pid, heal_registry:send(db, hello)),
    ?assertEqual(ok, heal_registry:unregister_name(db)),
    ?assertEqual(undefined, heal_registry:whereis_name(db)),
    ?assertExit({badarg, {db, hello}}, heal_registry:send(db, hello)),
    ?assertEqual(yes, heal_registry:register_name(db, Pid)),
    exit(Pid, kill),
    heal_cluster:eventually(fun() -> heal_registry:names() =:= [] end),
    None = #{},
    ?assertMatch(#{link := apart, number := 0, names := 0, problems := None, members := [_]}, heal_registry:status()).

via() ->
    Name = {via, heal_registry, counter},
    {ok, Pid} = gen_event:start(Name),
    ?assertEqual({error, {already_started, Pid}}, gen_event:start(Name)),
    ?assertEqual([], gen_event:which_handlers(Name)),
    ok = gen_event:stop(Name),
    ?assertEqual(undefined, heal_registry:whereis_name(counter)).

%% A process takes over the name of one that has just ended, before its monitor reports so.
restarts_at_once() ->
    Take = fun() ->
        {Pid, Monitor} = spawn_monitor(fun() -> yes = heal_registry:register_name(restarted, self()) end),
        receive {'DOWN', Monitor, _, Pid, Reason} -> Reason end
    end,
    ?assertEqual([normal], lists:usort([Take() || _ <- lists:seq(1, 300)])).

%% A caller doesn't wait until all names of a process that has ended are released.
many_names_of_one() ->
    Pid = spawn(heal_cluster, serve, [[]]),
    [ok = heal_registry:register(Name, Pid, #{}) || Name <- names("many", 1000)],
    ok = heal_registry:subscribe(),
    ok = sys:suspend(heal_registry),
    exit(Pid, kill),
    arrived('DOWN'),
    Self = self(),
    spawn_link(fun() -> Self ! {answer, heal_registry:register(next, Self, #{})} end),
    arrived('$gen_call'),
    ok = sys:resume(heal_registry),
    ?assertEqual(ok, receive {answer, Answer} -> Answer end),
    heal_cluster:eventually(fun() -> heal_registry:names() =:= [next] end),
    ok = heal_registry:unsubscribe(Self),
    Events = [element(1, Event) || Event <- events(), element(2, Event) =:= next orelse element(3, Event) =:= Pid],
    ?assertEqual(1000, length([unregistered || unregistered <- Events])),
    ?assertNotEqual(registered, lists:last(Events)),
    ok = heal_registry:unregister_name(next).

%% Waits until a message of this kind waits for the registry.
arrived(Kind) ->
    heal_cluster:eventually(fun() ->
        {messages, Messages} = process_info(whereis(heal_registry), messages),
        lists:keymember(Kind, 1, Messages)
    end).

events() ->
    receive {heal_registry, Event} -> [Event | events()] after 0 -> [] end.

bad_arguments() ->
    [?assertError(badarg, heal_registry:register(db, self(), Options))
     || Options <- [#{stamp => -1}, #{weight => x}, #{extra => <<>>}, #{resolver => later}, #{owner => {1, 1}}]],
    ?assertMatch({error, {41, _}}, heal_registry:register(db, self(), #{resolver => {program, <<0:256>>}})),
    ?assertMatch({error, {3, _}}, heal_registry:upload(<<1>>)),
    ?assertEqual([], heal_registry:names()).

%% 70,000 events don't fit into one journal.
long_journal() ->
    [begin
         yes = heal_registry:register_name(busy, self()),
         ok = heal_registry:unregister_name(busy)
     end || _ <- lists:seq(1, 35000)],
    ?assertEqual(yes, heal_registry:register_name(busy, self())),
    ?assertEqual(ok, heal_registry:unregister_name(busy)).

%% ---- Two nodes ----

joined_test_() ->
    pair(fun joined/2).

%% While the nodes are connected, edits of either are seen on both.
joined(A, B) ->
    [OnA, OnB] = [register_on(It, Name, #{}) || {It, Name} <- [{A, one}, {B, two}]],
    ?assertEqual([{one, OnA}, {two, OnB}], heal_cluster:alike(A, B)),
    ?assertMatch({error, {30, _}}, heal_cluster:call(B, heal_registry, register, [one, OnB, #{}])),
    ?assertMatch({error, {30, _}}, heal_cluster:call(A, heal_registry, register, [two, OnA, #{}])),
    {ok, Id} = heal_cluster:call(B, heal_registry, upload, [binary:decode_hex(<<?LATER>>)]),
    OnC = register_on(A, three, #{resolver => {program, Id}}),
    ok = heal_cluster:call(B, heal_registry, unregister_name, [one]),
    ?assertEqual([{three, OnC}, {two, OnB}], heal_cluster:alike(A, B)),
    heal_cluster:kill(B, OnB),
    heal_cluster:kill(A, OnC),
    heal_cluster:eventually(fun() -> {heal_cluster:table(A), heal_cluster:table(B)} =:= {[], []} end),
    %% Both nodes register one name at once: one of them gets it.
    Race = fun(It, Tag) -> Self = self(), spawn_link(fun() -> Self ! {Tag, (catch register_on(It, race, #{}))} end) end,
    lists:foreach(fun({It, Tag}) -> Race(It, Tag) end, [{A, a}, {B, b}]),
    Won = [Pid || Tag <- [a, b], Pid <- [receive {Tag, Answer} -> Answer end], is_pid(Pid)],
    ?assertMatch([_], Won),
    ?assertEqual([{race, hd(Won)}], heal_cluster:alike(A, B)).

split_test_() ->
    pair(fun split/2).

%% Edits on both halves, and clashes of every resolver.
split(A, B) ->
    Kept = register_on(A, kept, #{}),
    Dropped = register_on(B, dropped, #{}),
    {ok, Id} = heal_cluster:call(A, heal_registry, upload, [binary:decode_hex(<<?LATER>>)]),
    heal_cluster:alike(A, B),
    heal_cluster:split(A, B),
    heal_cluster:apart(A, B),
    Tables = {[{kept, Kept}], [{dropped, Dropped}]},
    heal_cluster:eventually(fun() -> {heal_cluster:table(A), heal_cluster:table(B)} =:= Tables end),
    ok = heal_cluster:call(B, heal_registry, unregister_name, [dropped]),
    Own = fun(It, Stamp) ->
        [register_on(It, Name, #{stamp => Stamp, resolver => Resolver})
         || {Name, Resolver} <- [{exits, exit}, {notifies, notify}, {neither, notify_all}, {program, {program, Id}}]]
    end,
    [ExitA, NotifyA, AllA, ProgramA] = Own(A, 5),
    [ExitB, NotifyB, AllB, ProgramB] = Own(B, 9),
    OnlyB = register_on(B, only, #{}),
    Table = maps:from_list(heal(A, B)),
    ?assertEqual([exits, kept, notifies, only, program], lists:sort(maps:keys(Table))),
    ?assertMatch(#{kept := Kept, only := OnlyB, program := ProgramB}, Table),
    Mails = fun(Owners) -> [heal_cluster:mail(It, Pid) || {It, Pid} <- Owners] end,
    heal_cluster:eventually(fun() ->
        %% Each of these has a notice, or in each pair one.
        not lists:member([], Mails([{A, ProgramA}, {A, AllA}, {B, AllB}]))
            andalso Mails([{A, NotifyA}, {B, NotifyB}]) =/= [[], []] andalso Mails([{A, ExitA}, {B, ExitB}]) =/= [[], []]
    end),
    ?assertEqual([{global_name_conflict, program}], heal_cluster:mail(A, ProgramA)),
    ?assertEqual([], heal_cluster:mail(B, ProgramB)),
    ?assertEqual([{global_name_conflict, neither, AllB}], heal_cluster:mail(A, AllA)),
    ?assertEqual([{global_name_conflict, neither, AllA}], heal_cluster:mail(B, AllB)),
    #{exits := Alive, notifies := Holder} = Table,
    Mail = #{ExitA => heal_cluster:mail(A, ExitA), ExitB => heal_cluster:mail(B, ExitB)},
    [Killed] = [ExitA, ExitB] -- [Alive],
    ?assertEqual({[], dead}, {maps:get(Alive, Mail), maps:get(Killed, Mail)}),
    [?assertEqual(case Pid of Holder -> []; _ -> [{global_name_conflict, notifies}] end, heal_cluster:mail(It, Pid))
     || {It, Pid} <- [{A, NotifyA}, {B, NotifyB}]].

thousand_test_() ->
    pair(fun thousand/2).

%% 1,000 clashing names: each has one owner afterwards, and each loser one notice.
thousand(A, B) ->
    heal_cluster:split(A, B),
    Names = names("name", 1000),
    [OnA, OnB] = [heal_cluster:own_each(It, ?REGISTER, Names, #{resolver => notify}) || It <- [A, B]],
    Table = maps:from_list(heal(A, B)),
    ?assertEqual(lists:sort(Names), lists:sort(maps:keys(Table))),
    Lost = fun(It, Pids) -> [{It, Name, Pid} || {Name, Pid} <- lists:zip(Names, Pids), map_get(Name, Table) =/= Pid] end,
    Losers = Lost(A, OnA) ++ Lost(B, OnB),
    ?assertEqual(1000, length(Losers)),
    Mails = fun() -> [{Name, heal_cluster:mail(It, Pid)} || {It, Name, Pid} <- Losers] end,
    heal_cluster:eventually(fun() -> not lists:keymember([], 2, Mails()) end),
    ?assertEqual([], [Loser || Loser = {Name, Mail} <- Mails(), Mail =/= [{global_name_conflict, Name}]]),
    Winners = [Pid || {Name, Pid} <- lists:zip(Names, OnA), map_get(Name, Table) =:= Pid],
    ?assertEqual([[]], lists:usort([heal_cluster:mail(A, Pid) || Pid <- Winners])).

exits_test_() ->
    pair(fun exits/2).

%% 300 losers are killed, split by split; every survivor keeps its name.
exits(A, B) ->
    Names = names("x", 100),
    [begin
         heal_cluster:split(A, B),
         heal_cluster:apart(A, B),
         [heal_cluster:own_each(It, ?REGISTER, Free, #{resolver => exit})
          || It <- [A, B], Free <- [Names -- [Name || {Name, _} <- heal_cluster:table(It)]]],
         ?assertEqual(lists:sort(Names), [Name || {Name, _} <- heal(A, B)])
     end || _ <- [1, 2, 3]].

restart_of_a_registry_test_() ->
    pair(fun restart_of_a_registry/2).

%% A registry that ends loses no name.
restart_of_a_registry(A, B) ->
    Table = lists:sort([{Name, register_on(It, Name, #{})} || {It, Name} <- [{A, one}, {B, two}]]),
    ?assertEqual(Table, heal_cluster:alike(A, B)),
    [begin
         heal_cluster:kill_registry(It),
         heal_cluster:start_registry(It, [A, B], #{}),
         ?assertEqual(Table, heal_cluster:alike(A, B))
     end || It <- [B, A]].

application_test_() ->
    {setup,
        fun() -> [heal_cluster:start(Letter) || Letter <- [a, b]] end,
        fun(Nodes) -> [heal_cluster:stop(It) || It <- Nodes] end,
        fun([A, B]) -> {timeout, 120, fun() -> application(A, B) end} end}.

%% The application starts the registry of the configuration, and its supervisor starts it again.
application(A, B) ->
    [heal_cluster:start_application(It, [A, B], []) || It <- [A, B]],
    heal_cluster:connect(A, B),
    heal_cluster:joined(A, B),
    Pid = register_on(B, one, #{}),
    Registry = heal_cluster:call(B, erlang, whereis, [heal_registry]),
    true = heal_cluster:call(B, erlang, exit, [Registry, kill]),
    heal_cluster:eventually(fun() ->
        Now = heal_cluster:call(B, erlang, whereis, [heal_registry]),
        is_pid(Now) andalso Now =/= Registry
    end),
    ?assertEqual([{one, Pid}], heal_cluster:alike(A, B)),
    %% An application that is stopped ends the names of its node, on both nodes.
    OnA = register_on(A, two, #{}),
    ?assertEqual([{one, Pid}, {two, OnA}], heal_cluster:alike(A, B)),
    ok = heal_cluster:call(B, application, stop, [heal]),
    heal_cluster:eventually(fun() -> heal_cluster:table(A) =:= [{two, OnA}] end),
    ?assertExit({not_running, heal_registry}, heal_cluster:call(B, heal_registry, names, [])),
    ok = heal_cluster:call(B, application, start, [heal]),
    ?assertEqual([{two, OnA}], heal_cluster:alike(A, B)).
