%% Changes of registrations, on any node and of any node's processes, and the names of a process.
-module(heal_change_tests).

-include_lib("eunit/include/eunit.hrl").

-define(REGISTER, {heal_registry, register}).
-define(QUICK, #{edit_timeout => 2000, exchange_timeout => 1000}).
-define(ONE, "b7000000010000009500000000000000").

own(It, Name) ->
    heal_cluster:own(It, ?REGISTER, Name, #{resolver => exit}).

call(It, Function, Args) ->
    heal_cluster:call(It, heal_registry, Function, Args).

resolver(It, Name) ->
    maps:get(resolver, call(It, info, [Name])).

changes_test_() ->
    {inparallel, 2, [
        [heal_cluster:cluster(Count, #{}, fun any_node/1) || Count <- heal_cluster:sizes()],
        [heal_cluster:cluster(Count, #{}, fun decides/1) || Count <- [3, 5]],
        heal_cluster:cluster(3, ?QUICK, fun primary_ends/1),
        heal_cluster:cluster(3, #{}, fun registries_fail/1),
        heal_cluster:cluster(3, #{send => fun heal_faults:send/2}, fun unknown_edit/1),
        heal_cluster:cluster(2, #{}, fun names_of/1)
    ]}.

%% Every node changes the name of every node's process, and has the change when the call returns.
any_node(Nodes) ->
    Names = [{Name, own(It, Name)} || {It, Name} <- lists:zip(Nodes, lists:sublist([one, two, three, four, {five, 5}], length(Nodes)))],
    heal_cluster:one_part(Nodes),
    {ok, Id} = call(lists:last(Nodes), upload, [binary:decode_hex(<<?ONE>>)]),
    [begin
         ?assertEqual(ok, call(It, set_resolver, [Name, Resolver])),
         ?assertEqual(Resolver, resolver(It, Name)),
         heal_cluster:eventually(fun() -> [Resolver] =:= lists:usort([resolver(Of, Name) || Of <- Nodes]) end)
     end || It <- Nodes, {Name, _} <- Names, Resolver <- [notify, notify_all, exit, {program, Id}]],
    [A, B | _] = Nodes,
    ?assertEqual(ok, call(B, update, [one, #{weight => 7, stamp => 8, extra => <<9:128>>}])),
    heal_cluster:eventually(fun() -> [7] =:= lists:usort([maps:get(weight, call(It, info, [one])) || It <- Nodes]) end),
    ?assertMatch(#{weight := 7, stamp := 8, extra := <<9:128>>, resolver := {program, Id}}, call(A, info, [one])),
    [begin
         ?assertMatch({error, {31, _}}, call(It, set_resolver, [nobody, notify])),
         ?assertMatch({error, {41, _}}, call(It, set_resolver, [one, {program, <<0:256>>}])),
         ?assertMatch({error, {31, _}}, call(It, set_resolver, [nobody, {program, <<0:256>>}])),
         ?assertMatch({error, {31, _}}, call(It, set_resolver, [heal_names:name({five, 5}), notify])),
         [?assertError(badarg, call(It, set_resolver, [one, Bad])) || Bad <- [later, {program, 1}, 7]],
         [?assertError(badarg, call(It, update, [one, Bad])) || Bad <- [#{owner => {1, 1}}, #{weight => -1}, #{x => 1}, []]],
         ?assertEqual(ok, call(It, update, [one, #{}]))
     end || It <- Nodes],
    ?assertEqual(lists:sort(Names), lists:sort(heal_cluster:one_part(Nodes))).

%% Clashes are decided by the resolvers that were set, on each side of a split.
decides(Nodes = [A, B, C | _]) ->
    Sides = [[A, B], lists:nthtail(2, Nodes)],
    heal_cluster:split_into(Sides),
    [heal_cluster:one_part(Side) || Side <- Sides],
    Names = [list_to_atom("n" ++ integer_to_list(N)) || N <- lists:seq(1, 10)],
    [OnB, OnC] = [[own(It, Name) || Name <- Names] || It <- [B, C]],
    %% Another node of the side changes it: nobody is killed.
    Last = lists:last(Nodes),
    [?assertEqual(ok, call(It, set_resolver, [Name, notify_all])) || It <- [A, Last], Name <- Names],
    heal_cluster:mesh(Nodes),
    heal_cluster:eventually(fun() -> heal_cluster:table(A) =:= [] end),
    ?assertEqual([], heal_cluster:one_part(Nodes)),
    [heal_cluster:eventually(fun() -> heal_cluster:mail(It, Pid) =:= [{global_name_conflict, Name, Other}] end)
     || {It, Pids, Others} <- [{B, OnB, OnC}, {C, OnC, OnB}], {Name, Pid, Other} <- lists:zip3(Names, Pids, Others)].

%% What was acknowledged is kept when the primary is killed.
primary_ends(Nodes) ->
    #{primary := Primary} = heal_cluster:status(hd(Nodes)),
    {[It], [B, C] = Rest} = lists:partition(fun(Of) -> heal_cluster:node_of(Of) =:= Primary end, Nodes),
    Names = [list_to_atom("n" ++ integer_to_list(N)) || N <- lists:seq(1, 20)],
    [own(Of, Name) || {Name, N} <- lists:zip(Names, lists:seq(1, 20)), Of <- [lists:nth(N rem 2 + 1, Rest)]],
    [?assertEqual(ok, call(lists:nth(N rem 3 + 1, Nodes), set_resolver, [Name, notify])) || {Name, N} <- lists:zip(Names, lists:seq(1, 20))],
    heal_cluster:kill_node(It),
    heal_cluster:one_part(Rest),
    [?assertEqual([notify], lists:usort([resolver(Of, Name) || Name <- Names])) || Of <- [B, C]].

%% What was acknowledged is kept when registries crash, that of the name's node too.
registries_fail(Nodes) ->
    [A, B, C] = Nodes,
    [own(It, Name) || {It, Name} <- [{A, one}, {B, two}, {C, three}]],
    [begin
         Weight = erlang:unique_integer([positive]),
         [?assertEqual(ok, call(By, update, [Name, #{weight => Weight}])) || Name <- [one, two, three]],
         heal_cluster:kill_registry(Fails),
         heal_cluster:start_registry(Fails, any, #{}),
         heal_cluster:one_part(Nodes),
         heal_cluster:eventually(fun() ->
             [Weight] =:= lists:usort([maps:get(weight, call(It, info, [Name])) || It <- Nodes, Name <- [one, two, three]])
         end)
     end || By <- Nodes, Fails <- Nodes].

%% A primary of an earlier version doesn't know the edit: the caller receives so, and nothing else happens.
unknown_edit(Nodes) ->
    #{primary := Primary} = heal_cluster:status(hd(Nodes)),
    Pid = own(hd(Nodes), one),
    [Other | _] = [It || It <- Nodes, heal_cluster:node_of(It) =/= Primary],
    ok = heal_cluster:call(Other, heal_faults, plan, [{replace_edit, {a_later_edit, <<"one">>}}]),
    ?assertEqual({error, bad_edit}, call(Other, set_resolver, [one, notify])),
    ok = heal_cluster:call(Other, heal_faults, plan, [none]),
    ?assertEqual([{one, Pid}], heal_cluster:one_part(Nodes)),
    ?assertEqual(exit, resolver(Other, one)).

%% One process under several names, and what happens to them.
names_of([A, B]) ->
    Pid = heal_cluster:call(A, erlang, spawn, [heal_cluster, serve, [[]]]),
    [ok = call(It, register, [Name, Pid, #{}]) || {It, Name} <- [{A, one}, {B, "two"}, {A, {three, 3}}]],
    Other = own(B, four),
    heal_cluster:one_part([A, B]),
    [?assertEqual(lists:sort([one, "two", {three, 3}]), lists:sort(call(It, names, [Pid]))) || It <- [A, B]],
    [?assertEqual([four], call(It, names, [Other])) || It <- [A, B]],
    ok = call(B, unregister_name, [one]),
    ?assertEqual(lists:sort(["two", {three, 3}]), lists:sort(call(B, names, [Pid]))),
    heal_cluster:kill(A, Pid),
    ?assertEqual([], call(A, names, [Pid])),
    heal_cluster:eventually(fun() -> call(B, names, [Pid]) =:= [] end),
    ?assertError(badarg, call(A, names, [one])).
