%% Options, numbers and notices, as heal_resolver and heal_registry use them.
-module(heal_names_tests).

-include_lib("eunit/include/eunit.hrl").

options_have_all_keys_test() ->
    ?assertMatch(#{stamp := Stamp, weight := 0, extra := <<0:128>>, resolver := exit} when is_integer(Stamp),
                 heal_names:options(#{})),
    All = #{stamp => 1, weight => 2, extra => <<3:128>>, resolver => {program, <<4:256>>}},
    ?assertEqual(All, heal_names:options(All)),
    ?assertEqual(All#{owner => {5, 6}}, heal_names:registration(5, 6, All)).

bad_options_test() ->
    Bad = [none, #{stamp => x}, #{weight => -1}, #{weight => 1 bsl 64}, #{extra => <<1>>}, #{resolver => later},
           #{resolver => {program, <<1>>}}, #{owner => {1, 1}}],
    [?assertError(badarg, heal_names:options(Options)) || Options <- Bad].

%% The application's resolver is checked when it is used, and by its name.
setting_test_() ->
    {setup,
        fun() -> ok end,
        fun(_) -> application:unset_env(heal, resolver) end,
        fun() ->
            application:set_env(heal, resolver, notify),
            ?assertMatch(#{resolver := notify}, heal_names:options(#{})),
            application:set_env(heal, resolver, "later"),
            ?assertError({bad_setting, resolver, "later"}, heal_names:options(#{})),
            ?assertMatch(#{resolver := exit}, heal_names:options(#{resolver => exit}))
        end}.

%% Serials count by themselves: numbers that others draw from the virtual machine make no gap, and a new version of the module
%% heal goes on.
serials_test() ->
    First = heal_names:serial(),
    [erlang:unique_integer([positive, monotonic]) || _ <- lists:seq(1, 100)],
    ?assertEqual(First + 1, heal_names:serial()),
    reload(),
    ?assertEqual(First + 2, heal_names:serial()).

reload() ->
    code:purge(heal),
    ?assertEqual({module, heal}, code:load_file(heal)).

%% Processes that draw serials at the same time never draw the same.
distinct_serials_test() ->
    Self = self(),
    Draw = fun() -> Self ! {drawn, [heal_names:serial() || _ <- lists:seq(1, 1000)]} end,
    [spawn_link(Draw) || _ <- lists:seq(1, 8)],
    Drawn = lists:append([receive {drawn, Serials} -> Serials end || _ <- lists:seq(1, 8)]),
    ?assertEqual(8000, length(lists:usort(Drawn))).

%% The counter wraps after 2^32 numbers, and 0 is none of them.
last_serial_test() ->
    Counter = heal:serials(),
    Before = atomics:get(Counter, 1),
    atomics:put(Counter, 1, 16#fffffffe),
    ?assertEqual([16#ffffffff, 1, 2], [heal_names:serial() || _ <- [1, 2, 3]]),
    atomics:put(Counter, 1, Before).

%% The uptime leaves the clock of other users as it is.
uptime_test() ->
    erlang:statistics(wall_clock),
    Before = heal_names:uptime(),
    heal_cluster:eventually(fun() -> heal_names:uptime() >= Before + 30 end),
    {_, Since} = erlang:statistics(wall_clock),
    ?assert(Since >= 29).

clash(Resolver, Verdict, Notices) ->
    Registration = #{owner => {1, 1}, resolver => Resolver},
    #{first => Registration, second => Registration, verdict => Verdict, notices => Notices}.

%% Two registrations with one owner: the verdict gives the position.
notices_test() ->
    Owner = {1, 1},
    Both = [{conflict_with, first}, {conflict_with, second}],
    Expected = [{[{exit, second}], exit, first, [{exit, Owner}]},
                {[{exit, first}], exit, second, [{exit, Owner}]},
                {[{conflict, second}], notify, first, [{conflict, Owner}]},
                {Both, notify_all, neither, [{conflict_with, Owner, Owner}, {conflict_with, Owner, Owner}]},
                {[{conflict, first}], {program, <<1:256>>}, second, []},
                {Both, {program, <<1:256>>}, neither, []}],
    [?assertEqual(Positions, heal_names:notices(clash(Resolver, Verdict, Notices)))
     || {Positions, Resolver, Verdict, Notices} <- Expected].

deliver_test() ->
    [One, Two, Three] = [spawn(heal_cluster, serve, [[]]) || _ <- [1, 2, 3]],
    Notices = [{{conflict, first}, {One, Two}}, {{conflict, second}, {One, Two}}, {{conflict_with, second}, {One, Two}},
               {{exit, first}, {Three, Two}}, {{exit, first}, {undefined, Two}}, {{conflict, second}, {One, undefined}}],
    [?assertEqual(ok, heal_names:deliver(db, Notice, Pids)) || {Notice, Pids} <- Notices],
    ?assertEqual([[{global_name_conflict, db}], [{global_name_conflict, db}, {global_name_conflict, db, One}], dead],
                 [heal_cluster:mail_here(Pid) || Pid <- [One, Two, Three]]).
