%% heal_registry when messages are lost, repeated or late, when processes are killed during an exchange, and when a node ends
%% at each step of it.
-module(heal_faults_tests).

-include_lib("eunit/include/eunit.hrl").

-define(REGISTER, {heal_registry, register}).
%% An exchange without progress is abandoned after this time, where a test waits for that.
-define(SOON, 300).

-define(LONG, 20000).

options(Timeout) ->
    #{send => fun heal_faults:send/2, exchange_timeout => Timeout}.

%% Runs a test on two nodes that are apart, have registries, and one clashing name, `db', and a name each, `a' and `b'.
halves(Timeout, Test) ->
    heal_cluster:halves(options(Timeout), fun(A, B) -> Test(A, B, owners(A, B)) end).

owners(A, B) ->
    Own = fun(It, Name) -> heal_cluster:own(It, ?REGISTER, Name, #{resolver => notify}) end,
    #{a => Own(A, a), b => Own(B, b), db_of_a => Own(A, db), db_of_b => Own(B, db)}.

plan(It, Plan) ->
    ok = heal_cluster:call(It, heal_faults, plan, [Plan]).

release(It) ->
    heal_cluster:call(It, heal_faults, release, []).

holds(It) ->
    heal_cluster:eventually(fun() -> heal_cluster:call(It, heal_faults, held, []) =/= [] end).

%% Waits until both answer alike for all names, with one owner of `db'.
healed(A, B, #{a := OnA, b := OnB, db_of_a := DbA, db_of_b := DbB}) ->
    Table = [{a, OnA}, {b, OnB}, {db, Db}] = heal_cluster:alike(A, B),
    ?assert(lists:member(Db, [DbA, DbB])),
    Loser = case Db of DbA -> {B, DbB}; DbB -> {A, DbA} end,
    heal_cluster:eventually(fun() -> mail(Loser) =/= [] end),
    ?assertEqual([{global_name_conflict, db}], mail(Loser)),
    ?assertEqual([[], [{global_name_conflict, db}]], lists:sort([mail({It, Pid}) || {It, Pid} <- [{A, DbA}, {B, DbB}]])),
    Table.

mail({It, Pid}) ->
    heal_cluster:mail(It, Pid).

%% ---- Repeated messages ----

repeated_test_() ->
    halves(?LONG, fun repeated/3).

%% Every message arrives twice: the exchange, edits and requests for edits.
repeated(A, B, Owners) ->
    [plan(It, twice) || It <- [A, B]],
    heal_cluster:connect(A, B),
    Table = healed(A, B, Owners),
    #{number := Number} = heal_cluster:status(A),
    [OnC, OnD, OnE, OnF] = [heal_cluster:own(It, ?REGISTER, Name, #{}) || {It, Name} <- [{A, c}, {B, d}, {A, e}, {B, f}]],
    ok = heal_cluster:call(B, heal_registry, unregister_name, [c]),
    ok = heal_cluster:call(A, heal_registry, unregister_name, [d]),
    heal_cluster:kill(B, OnF),
    ?assertEqual(ok, heal_cluster:call(B, heal_registry, register, [c, OnD, #{}])),
    heal_cluster:eventually(fun() -> heal_cluster:table(B) =:= lists:sort([{c, OnD}, {e, OnE} | Table]) end),
    ?assertEqual(lists:sort([{c, OnD}, {e, OnE} | Table]), heal_cluster:alike(A, B)),
    ?assertEqual([], heal_cluster:mail(A, OnC)),
    ?assertMatch(#{number := Number}, heal_cluster:status(A)).

%% ---- Lost and delayed messages ----

lost_test_() ->
    {inparallel, 3, [{atom_to_list(Kind), halves(?SOON, fun(A, B, Owners) -> lost(Sender, Kind, A, B, Owners) end)}
     || {Sender, Kind} <- [{b, offer}, {a, list}, {b, list}]]}.

%% One kind of message is lost until the exchange is abandoned: each half keeps its table, and a later exchange heals.
lost(Sender, Kind, A, B, Owners) ->
    plan(case Sender of a -> A; b -> B end, {lose, Kind}),
    heal_cluster:connect(A, B),
    heal_cluster:eventually(fun() -> maps:get(number, heal_cluster:status(A)) >= 3 end),
    #{a := OnA, b := OnB} = Owners,
    ?assertEqual(OnA, heal_cluster:call(A, heal_registry, whereis_name, [a])),
    ?assertEqual(OnB, heal_cluster:call(B, heal_registry, whereis_name, [b])),
    [plan(It, none) || It <- [A, B]],
    healed(A, B, Owners).

delayed_test_() ->
    Test = fun(Sender, Kind) -> halves(?SOON, fun(A, B, Owners) -> delayed(Sender, Kind, A, B, Owners) end) end,
    {inparallel, 3, [{lists:concat([Sender, " ", Kind]), Test(Sender, Kind)}
     || {Sender, Kind} <- [{a, ask}, {b, hello}, {a, offer}, {b, offer}, {a, list}]]}.

%% Messages of abandoned exchanges arrive after a later exchange healed: they change nothing.
delayed(Sender, Kind, A, B, Owners) ->
    It = case Sender of a -> A; b -> B end,
    plan(It, {hold, Kind}),
    heal_cluster:connect(A, B),
    heal_cluster:eventually(fun() -> length(heal_cluster:call(It, heal_faults, held, [])) >= 2 end),
    plan(It, none),
    Table = healed(A, B, Owners),
    #{number := Number} = heal_cluster:status(A),
    release(It),
    ?assertEqual(Table, heal_cluster:alike(A, B)),
    OnC = heal_cluster:own(B, ?REGISTER, c, #{}),
    ?assertEqual(lists:sort([{c, OnC} | Table]), heal_cluster:alike(A, B)),
    ?assertMatch(#{number := Number}, heal_cluster:status(A)).

%% ---- Calls and deaths during an exchange ----

during_test_() ->
    halves(?LONG, fun during/3).

%% While the exchange is open, names are found, and processes that are killed are withdrawn. Edits wait, but new names are registered once the
%% primary knows the names of the other side.
during(A, B, Owners = #{a := OnA, b := OnB, db_of_a := DbA, db_of_b := DbB}) ->
    More = [{It, Name, heal_cluster:own(It, ?REGISTER, Name, #{resolver => notify})}
            || {It, Name} <- [{A, dies_on_a}, {A, dies_twice}, {B, dies_twice}, {B, dies_on_b}, {A, dies_late}]],
    plan(B, {hold, offer}),
    heal_cluster:connect(A, B),
    holds(B),
    [?assertMatch(#{link := open}, heal_cluster:status(It)) || It <- [A, B]],
    ?assertEqual([OnA, DbA, DbB, OnB], [heal_cluster:call(It, heal_registry, whereis_name, [Name])
                                        || {It, Name} <- [{A, a}, {A, db}, {B, db}, {B, b}]]),
    Self = self(),
    spawn_link(fun() -> Self ! {registered, heal_cluster:own(A, ?REGISTER, later, #{})} end),
    OnEarly = heal_cluster:own(B, ?REGISTER, early, #{}),
    ?assertEqual(OnEarly, heal_cluster:call(B, heal_registry, whereis_name, [early])),
    spawn_link(fun() -> Self ! {taken, heal_cluster:call(A, heal_registry, register, [b, OnA, #{}])} end),
    [heal_cluster:kill(It, Pid) || {It, Name, Pid} <- More, Name =/= dies_late],
    Names = fun(It) -> [Name || {Name, _} <- heal_cluster:table(It)] end,
    heal_cluster:eventually(fun() -> {Names(A), Names(B)} =:= {[a, db, dies_late], [b, db, early]} end),
    receive {registered, _} -> error(registered_before_the_offer) after 0 -> ok end,
    plan(B, {hold, list}),
    release(B),
    holds(B),
    %% B has finished, and A has closed its list.
    heal_cluster:eventually(fun() -> [Link || It <- [A, B], #{link := Link} <- [heal_cluster:status(It)]] =:= [open, joined] end),
    [heal_cluster:kill(It, Pid) || {It, dies_late, Pid} <- More],
    OnLater = receive {registered, Pid} -> Pid end,
    ?assertMatch(#{link := open}, heal_cluster:status(A)),
    receive {taken, _} -> error(edited_during_the_exchange) after 0 -> ok end,
    plan(B, none),
    release(B),
    ?assertMatch({error, {30, _}}, receive {taken, Answer} -> Answer end),
    heal_cluster:eventually(fun() -> Names(B) =:= [a, b, db, early, later] end),
    Table = heal_cluster:alike(A, B),
    ?assertEqual([OnEarly, OnLater], [proplists:get_value(Name, Table) || Name <- [early, later]]),
    ?assert(lists:member(proplists:get_value(db, Table), [DbA, DbB])),
    ?assertEqual(4, map_size(Owners)).

%% ---- A node that ends ----

ends_test_() ->
    Steps = [{a, ask}, {b, hello}, {a, offer}, {b, offer}, {a, list}, {b, list}],
    Ends = [{Who, Kind, When} || {Who, Kind} <- Steps, When <- [before, later]] ++ [{a, finished, before}, {b, finished, before}],
    {inparallel, 3, [{lists:concat([Who, " at ", Kind, " ", When]),
                      heal_cluster:halves(options(?LONG), fun(A, B) -> ends(Who, Kind, When, A, B) end)}
     || {Who, Kind, When} <- Ends]}.

%% A node ends when it sends this message. The other has its own table, also after the merge, and heals with the node's next run.
ends(Who, Kind, When, A, B) ->
    #{a := OnA, b := OnB, db_of_a := DbA, db_of_b := DbB} = owners(A, B),
    {Ends, Stays, Own} = case Who of
        a -> {A, B, [{b, OnB}, {db, DbB}]};
        b -> {B, A, [{a, OnA}, {db, DbA}]}
    end,
    plan(Ends, {halt, Kind, When}),
    %% A node may end while others of its side are being connected.
    _ = catch heal_cluster:connect(Stays, Ends),
    Rest = heal_cluster:all([A, B]) -- [Ends],
    heal_cluster:eventually(fun() ->
        not lists:member(heal_cluster:node_of(Ends), heal_cluster:call(Stays, erlang, nodes, []))
    end),
    heal_cluster:stop(Ends),
    heal_cluster:mesh(Rest),
    heal_cluster:one_part(Rest),
    heal_cluster:eventually(fun() -> heal_cluster:table(Stays) =:= Own end),
    ?assertEqual([], heal_cluster:mail(Stays, proplists:get_value(db, Own))),
    Again = heal_cluster:start_again(Ends),
    heal_cluster:start_registry(Again, [A, B], options(?LONG)),
    New = heal_cluster:own(Again, ?REGISTER, new, #{}),
    heal_cluster:connect(Again, Stays),
    ?assertEqual(lists:sort([{new, New} | Own]), heal_cluster:alike(Again, Stays)),
    heal_cluster:stop(Again).

%% ---- Too many names ----

too_many_test_() ->
    halves(?SOON, fun too_many/3).

%% Halves with more than 4,096 names together keep their tables, and heal once enough names are unregistered.
too_many(A, B, _Owners) ->
    Names = fun(Prefix) -> [Prefix ++ integer_to_list(N) || N <- lists:seq(1, 2100)] end,
    [heal_cluster:own_each(It, ?REGISTER, Names(Prefix), #{}) || {It, Prefix} <- [{A, "a"}, {B, "b"}]],
    heal_cluster:connect(A, B),
    heal_cluster:eventually(fun() -> maps:get(number, heal_cluster:status(A)) >= 2 end),
    ?assertEqual([2102, 2102], [length(heal_cluster:table(It)) || It <- [A, B]]),
    [ok = heal_cluster:call(B, heal_registry, unregister_name, [Name]) || Name <- lists:sublist(Names("b"), 200)],
    heal_cluster:joined(A, B),
    heal_cluster:eventually(fun() -> heal_cluster:table(A) =:= heal_cluster:table(B) end),
    ?assertEqual(4003, length(heal_cluster:table(A))).

%% ---- More names ----

more_names_test_() ->
    heal_cluster:halves(#{exchange_timeout => 10 * ?SOON, names => 8300}, fun more_names/2).

%% Halves that have as many names together as the setting allows heal, and no more names are registered.
more_names(A, B) ->
    [heal_cluster:own_each(It, ?REGISTER, [Prefix ++ integer_to_list(N) || N <- lists:seq(1, 4150)], #{})
     || {It, Prefix} <- [{A, "a"}, {B, "b"}]],
    heal_cluster:connect(A, B),
    heal_cluster:joined(A, B),
    heal_cluster:eventually(fun() -> heal_cluster:table(A) =:= heal_cluster:table(B) end),
    ?assertEqual(8300, length(heal_cluster:table(A))),
    Pid = heal_cluster:call(B, erlang, spawn, [heal_cluster, serve, [[]]]),
    ?assertMatch({error, {32, <<_/binary>>}}, heal_cluster:call(B, heal_registry, register, [more, Pid, #{}])).
