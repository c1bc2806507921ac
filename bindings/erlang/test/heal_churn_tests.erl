%% heal_registry while processes on both nodes register, unregister and end, and the nodes are split and connected.
-module(heal_churn_tests).

-include_lib("eunit/include/eunit.hrl").

-export([start_workers/2, stop_workers/1]).

-define(NAMES, 60).
-define(WORKERS, 3).
-define(SPLITS, 12).

churn_test_() ->
    {inparallel, 2, [{atom_to_list(Plan), heal_cluster:halves(#{exchange_timeout => 1000}, fun(A, B) -> churn(Plan, A, B) end)}
     || Plan <- [none, twice]]}.

%% Registries send each message as this plan prescribes. After every healing all nodes answer alike for every name, whether the edits
%% stopped before it or during it.
churn(Plan, A, B) ->
    Nodes = heal_cluster:all([A, B]),
    [ok = heal_cluster:call(It, heal_faults, plan, [Plan]) || It <- Nodes],
    Seed = erlang:phash2(make_ref()),
    Lines = [begin
                 Workers = [{It, heal_cluster:call(It, ?MODULE, start_workers, [?WORKERS, Seed + N])} || It <- Nodes],
                 timer:sleep(N * 7 rem 40),
                 heal_cluster:connect(A, B),
                 N rem 3 =:= 0 andalso timer:sleep(N * 11 rem 60),
                 Edits = [heal_cluster:call(It, ?MODULE, stop_workers, [Pids]) || {It, Pids} <- Workers],
                 Table = heal_cluster:alike(A, B),
                 ?assertEqual([], [Name || {Name, Pid} <- Table, not is_pid(Pid)]),
                 heal_cluster:split(A, B),
                 {Edits, length(Table)}
             end || N <- lists:seq(1, ?SPLITS)],
    {Edits, Names} = lists:unzip(Lines),
    ?debugFmt("seed ~p: ~p edits, ~w names after each healing", [Seed, lists:sum(lists:append(Edits)), Names]),
    ?assert(lists:sum(lists:append(Edits)) > 100).

%% ---- On the nodes ----

start_workers(Count, Seed) ->
    [spawn(fun() -> _ = rand:seed(exsss, Seed * 16 + N), work(0) end) || N <- lists:seq(1, Count)].

%% Stops the workers. Returns how many edits they made.
stop_workers(Pids) ->
    lists:sum([begin Pid ! {stop, self()}, receive {edits, Pid, Edits} -> Edits end end || Pid <- Pids]).

work(Edits) ->
    receive
        {stop, From} -> From ! {edits, self(), Edits}
    after 0 ->
        Name = list_to_atom("n" ++ integer_to_list(rand:uniform(?NAMES))),
        edit(rand:uniform(4), Name),
        work(Edits + 1)
    end.

edit(1, Name) ->
    heal_registry:unregister_name(Name);
edit(2, Name) ->
    case heal_registry:whereis_name(Name) of
        Pid when is_pid(Pid), node(Pid) =:= node() -> exit(Pid, kill);
        _ -> true
    end;
edit(_, Name) ->
    Resolver = lists:nth(rand:uniform(3), [exit, notify, notify_all]),
    Pid = spawn(heal_cluster, serve, [[]]),
    case heal_registry:register(Name, Pid, #{resolver => Resolver}) of
        ok -> ok;
        {error, {30, _}} -> exit(Pid, kill)
    end.
