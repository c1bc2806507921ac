%% Runs modules of tests and ends the virtual machine with status 0 if all passed.
-module(heal_test_run).

-export([main/1]).

%% The seconds that a test without another limit may take. EUnit's 5 seconds are too few on a busy machine.
-define(SECONDS, 120).

main(Modules) ->
    %% The simulator needs no nodes, which mostly wait, so it runs at the same time.
    {Simulated, Others} = lists:partition(fun(Module) -> Module =:= heal_sim_tests end, Modules),
    Tests = {inparallel, [{inorder, [{atom_to_list(Module), tests(Module)} || Module <- Some]} || Some <- [Simulated, Others]]},
    {Time, Result} = timer:tc(fun() -> eunit:test(Tests) end),
    io:format("~p in ~.1f s with OTP ~s~n", [Result, Time / 1.0e6, erlang:system_info(otp_release)]),
    halt(case Result of ok -> 0; error -> 1 end).

tests(Module) ->
    Functions = [{atom_to_list(Function), Function} || {Function, 0} <- Module:module_info(exports)],
    [{timeout, ?SECONDS, {test, Module, Function}} || {Name, Function} <- Functions, lists:suffix("_test", Name)]
        ++ [{generator, Module, Function} || {Name, Function} <- Functions, lists:suffix("_test_", Name)].
