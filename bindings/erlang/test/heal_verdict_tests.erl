%% What heal_resolver:resolve/3 decides, on one node, from tables that a test fills.
-module(heal_verdict_tests).

-include_lib("eunit/include/eunit.hrl").

verdict_test_() ->
    {setup,
        fun() -> {ok, Pid} = heal_facts:start_link(), {Pid, heal_resolver_tests:quiet()} end,
        fun({Pid, Level}) -> unlink(Pid), gen_server:stop(Pid), heal_resolver_tests:loud(Level) end,
        [{timeout, 120, Test} || Test <- [fun built_in/0, fun programs/0, fun facts/0, fun one_owner/0, fun unknown_owner/0,
                                          fun unknown_owners/0, fun unknown_program/0, fun crash/0]]}.

owner() ->
    spawn(heal_cluster, serve, [[]]).

%% Makes processes known under a name. Owners are in the order of the options, unless these have an owner.
known(Name, Options) ->
    [begin
         Pid = owner(),
         All = heal_names:options(maps:remove(owner, It)),
         heal_facts:add(Name, Pid, maps:merge(heal_names:registration(1, heal_names:serial(), All), maps:with([owner], It))),
         Pid
     end || It <- Options].

mail(Pids) ->
    [heal_cluster:mail_here(Pid) || Pid <- Pids].

upload(Code) ->
    {ok, Program} = heal:load(Code),
    {ok, Id} = heal:program_id(Program),
    heal_facts:keep_program(Id, Code, Program),
    Id.

%% Returns the process that keeps the name, and the other one.
resolved(Name, Pids = [One, Other]) ->
    Kept = heal_resolver:resolve(Name, One, Other),
    [Lost] = Pids -- [Kept],
    {Kept, Lost}.

built_in() ->
    Exits = [begin
                 [One, Other] = known(db, [#{}, #{}]),
                 {Kept, Lost} = resolved(db, [One, Other]),
                 ?assertEqual([[], dead], mail([Kept, Lost])),
                 Kept =:= One
             end || _ <- lists:seq(1, 64)],
    ?assertEqual([false, true], lists:usort(Exits)),
    %% The first one's resolver decides, in either order of the arguments.
    [First, Second] = known(db, [#{resolver => notify}, #{resolver => exit}]),
    {Kept, Lost} = resolved(db, [Second, First]),
    ?assertEqual([[], [{global_name_conflict, db}]], mail([Kept, Lost])),
    [One, Two] = known({any, "term"}, [#{resolver => notify_all}, #{}]),
    ?assertEqual(none, heal_resolver:resolve({any, "term"}, Two, One)),
    ?assertEqual([[{global_name_conflict, {any, "term"}, Two}], [{global_name_conflict, {any, "term"}, One}]], mail([One, Two])).

programs() ->
    Id = upload(heal_resolver_tests:code("later_stamp")),
    [begin
         [One, Other] = known(db, [#{stamp => Stamp, resolver => {program, Id}}, #{stamp => 9}]),
         Kept = element(First, {One, Other}),
         ?assertEqual([Kept, Kept], [heal_resolver:resolve(db, One, Other), heal_resolver:resolve(db, Other, One)]),
         [Lost] = [One, Other] -- [Kept],
         ?assertEqual([[], lists:duplicate(2, {global_name_conflict, db})], mail([Kept, Lost]))
     end || {Stamp, First} <- [{8, 2}, {9, 1}, {10, 1}]].

%% The record has how many names the owner's node has, and the node's uptime.
facts() ->
    [One, Two] = known(facts, [#{}, #{}]),
    heal_facts:node_up(node(), 1, 5000),
    {ok, _, #{size := Size, uptime := Uptime}} = heal_facts:known(facts, One),
    ?assertEqual(length(heal_facts:names_of(node())), Size),
    ?assert(Uptime >= 5000 andalso Uptime < 100000),
    ?assertEqual([true, false], [heal_facts:drop(facts, Two) || _ <- [1, 2]]),
    ?assertMatch({ok, _, #{size := Fewer}} when Fewer =:= Size - 1, heal_facts:known(facts, One)).

%% Two nodes with one number: the owner that wins is neither killed nor notified.
one_owner() ->
    [begin
         Pids = known(db, [#{owner => {7, 1}, resolver => Resolver} || _ <- [1, 2]]),
         {Kept, Lost} = resolved(db, Pids),
         ?assertEqual([[], Notice], mail([Kept, Lost]))
     end || {Resolver, Notice} <- [{exit, dead}, {notify, [{global_name_conflict, db}]}], _ <- lists:seq(1, 16)],
    [One, Two] = known(db, [#{owner => {7, 1}, resolver => notify_all} || _ <- [1, 2]]),
    ?assertEqual(none, heal_resolver:resolve(db, One, Two)),
    ?assertEqual([[{global_name_conflict, db, Two}], [{global_name_conflict, db, One}]], mail([One, Two])).

%% A process that nobody knows loses, is notified and lives, with every resolver of the other one.
unknown_owner() ->
    [begin
         [Known] = known(db, [#{resolver => Resolver}]),
         Unknown = owner(),
         ?assertEqual([Known, Known], [heal_resolver:resolve(db, Known, Unknown), heal_resolver:resolve(db, Unknown, Known)]),
         ?assertEqual([[], lists:duplicate(2, {global_name_conflict, db})], mail([Known, Unknown]))
     end || Resolver <- [exit, notify_all, {program, <<0:256>>}], _ <- lists:seq(1, 8)].

unknown_owners() ->
    Pids = [One, Two] = [owner(), owner()],
    {Kept, Lost} = resolved(db, Pids),
    ?assertEqual(Kept, heal_resolver:resolve(db, Two, One)),
    ?assertEqual([[], lists:duplicate(2, {global_name_conflict, db})], mail([Kept, Lost])).

%% Nobody has the program: the first keeps the name.
unknown_program() ->
    [First, Second] = known(db, [#{resolver => {program, <<1:256>>}}, #{}]),
    ?assertEqual([First, First], [heal_resolver:resolve(db, First, Second), heal_resolver:resolve(db, Second, First)]),
    ?assertEqual([[], lists:duplicate(2, {global_name_conflict, db})], mail([First, Second])).

%% A registration that libheal refuses: `global' gets a process all the same.
crash() ->
    [One, Two] = known(db, [#{resolver => notify}, #{}]),
    {ok, Registration, _} = heal_facts:known(db, One),
    heal_facts:add(db, One, Registration#{stamp => none}),
    {Kept, Lost} = resolved(db, [One, Two]),
    ?assertEqual([[], [{global_name_conflict, db}]], mail([Kept, Lost])).
