%% The simulator finds no broken promise, and finds faults that are put into its model of an exchange.
-module(heal_sim_tests).

-include_lib("eunit/include/eunit.hrl").

%% Each run of the tests has other schedules.
schedules_test_() ->
    {timeout, 240, fun() ->
        Seed = erlang:phash2(make_ref()),
        ?assertEqual(ok, heal_sim:run(2000, Seed))
    end}.

%% Halves that merge differently are found.
faults_test_() ->
    [{atom_to_list(Fault), {timeout, 120, fun() ->
         ?assertMatch([{error, {_, _}} | _], [Broken || Seed <- lists:seq(1, 40), Broken <- [heal_sim:schedule(Seed, false, Fault)],
                                                        element(1, Broken) =:= error])
     end}} || Fault <- [side_decides, deaf]].

%% A schedule follows from its seed.
same_seed_test() ->
    ?assertEqual(heal_sim:schedule(7), heal_sim:schedule(7)),
    ?assertMatch({ok, #{notices := Notices}} when Notices > 0, heal_sim:schedule(7)).
