%% Simulates a cluster of five to nine nodes in one process, by random schedules, and checks what heal_registry promises.
%%
%% Each node runs heal_part, as the server of heal_registry does. Time is virtual. Messages are delayed, and in most schedules also
%% lost, repeated and reordered, also across a reconnection. Links are cut and restored one by one; nodes are killed and started
%% again, one by one or all at once, hang and go on; registries crash at any moment and go on with what they kept, or are stopped and
%% start again; clocks differ, and timers fire early and late. In half of the schedules nodes have disks, which are slow and sometimes
%% full. Callers on all nodes register, change, unregister and end processes of few names, so that most parts clash. A schedule follows
%% from its seed alone.
-module(heal_sim).

-include("heal_sim.hrl").

-export([main/1, run/2, schedule/1, schedule/2, schedule/3, event/3, pairs/1, start_node/2, start_registry/2, connected/2]).

main([Count, Seed]) ->
    halt(case run(list_to_integer(Count), list_to_integer(Seed)) of ok -> 0; _ -> 1 end).

%% Runs this many schedules from this seed on. Prints the trace of the first one that breaks a promise.
run(Count, Seed) ->
    {Time, Result} = timer:tc(fun() -> run_from(Count, Seed, #{}) end),
    case Result of
        {ok, Totals} ->
            io:format("~p schedules from seed ~p kept all promises in ~.1f s: ~p~n", [Count, Seed, Time / 1.0e6, Totals]),
            ok;
        {error, Failed, Reason} ->
            _ = schedule(Failed, true),
            io:format("seed ~p: ~0p~n", [Failed, Reason]),
            {error, Failed}
    end.

run_from(0, _Seed, Totals) ->
    {ok, Totals};
run_from(Count, Seed, Totals) ->
    case schedule(Seed) of
        {ok, Facts} -> run_from(Count - 1, Seed + 1, maps:merge_with(fun(_, X, Y) -> X + Y end, Totals#{}, Facts));
        {error, Reason} -> {error, Seed, Reason}
    end.

schedule(Seed) ->
    schedule(Seed, false).

schedule(Seed, IsTraced) ->
    schedule(Seed, IsTraced, none).

%% Runs a schedule with a fault of heal_sim_world.
schedule(Seed, IsTraced, Fault) ->
    _ = rand:seed(exsss, Seed),
    _ = heal_sim_world:start(Fault),
    Sim = start(IsTraced),
    try heal_sim_calls:finish(play(Sim)) of
        Facts -> {ok, Facts}
    catch
        throw:{broken, Promise, Facts, Last} ->
            IsTraced =:= all andalso heal_sim_trace:print([], Last, 1000000),
            IsTraced =:= true andalso heal_sim_trace:print(heal_sim_trace:about(Facts, Last), Last, ?TRACE),
            {error, {Promise, Facts}};
        error:Reason:Stack ->
            IsTraced =/= false andalso heal_sim_trace:print([], get(last_sim), ?TRACE),
            {error, {crash, Reason, lists:sublist(Stack, 6)}}
    end.

start(IsTraced) ->
    Names = lists:sublist([a, b, c, d, e, f, g, h, i], 4 + rand:uniform(5)),
    Kind = rand:uniform(4),
    Faults = #{
        lost => element(Kind, {0, 0, 20, 60}),
        twice => element(Kind, {0, 30, 20, 60}),
        late => element(Kind, {0, 0, 20, 60}),
        full => lists:nth(rand:uniform(3), [0, 0, 20]),
        delay => lists:nth(rand:uniform(3), [2, 20, 200])
    },
    Sim = #sim{faults = Faults, has_disks = rand:uniform(2) =:= 1, is_traced = IsTraced, nodes = maps:from_list([{Name, #node{}} || Name <- Names])},
    Timed = patient(rand:uniform(4), Sim),
    Started = lists:foldl(fun start_node/2, Timed, Names),
    Connected = lists:foldl(fun({A, B}, Sum) -> heal_sim_trace:at(rand:uniform(2000), {restore, A, B}, Sum) end, Started, pairs(Names)),
    Looking = heal_sim_trace:at(?FAULTY + ?PROMPT, prompt, Connected),
    heal_sim_trace:at(1, fault, heal_sim_trace:at(5, client, heal_sim_trace:at(?FAULTY, quiet, Looking))).

patient(1, Sim = #sim{faults = Faults}) ->
    Sim#sim{is_patient = true, timeouts = {20000, 40000}, faults = Faults#{lost := 0, twice := 0, late := 0}};
patient(_, Sim) ->
    Sim.

pairs(Names) ->
    [{A, B} || A <- Names, B <- Names, A < B].

%% Starts a node: another run of it.
start_node(Name, Sim = #sim{nodes = Nodes, now = Now}) ->
    #{Name := #node{runs = Runs, disk = Disk}} = Nodes,
    Offset = rand:uniform(1000000),
    Rate = 0.95 + rand:uniform() / 10,
    Life = {Name, Runs + 1},
    New = #node{life = Life, runs = Runs + 1, offset = Offset, rate = Rate, disk = Disk},
    start_registry(Name, Sim#sim{nodes = Nodes#{Name := New}, now = Now}).

start_registry(Name, Sim = #sim{nodes = Nodes, count = Count, now = Now, timeouts = {Edit, Exchange}}) ->
    #{Name := Node = #node{life = Life, offset = Offset, rate = Rate, table = Table, kept = Kept}} = Nodes,
    Own = owned(Life, Table, maps:get(own, Kept, #{})),
    Common = (heal_sim_disk:settings(Name, Sim))#{life => Life, number => erlang:phash2(Name, 1000), scope => sim, nodes => any, names => 4096,
               world => heal_sim_world, seq => Count * 1000, now => Offset + trunc(Now * Rate),
               connected => [{Other, visible} || Other <- connected(Name, Sim)], edit_timeout => Edit, exchange_timeout => Exchange},
    Settings = case Kept of
        #{position := {At, Led, Latest}} ->
            Programs = maps:merge(maps:get(programs, Common, #{}), maps:get(programs, Kept, #{})),
            Names = maps:filtermap(fun(_, {Row, How}) -> How =/= restoring andalso {true, Row} end, Table),
            Known = maps:with(maps:get(known, Kept, []), maps:get(programs, Kept, #{})),
            Half = #half{names = Names, programs = Known, latest = Latest},
            Common#{replica => heal_replica:resume(Life, At, max(Led, maps:get(led, Kept, Led)), Half), own => Own, programs => Programs,
                    is_exact => maps:get(is_exact, Kept, true),
                    greatest => max(maps:get(greatest, Common, 0), maps:get(greatest, Kept, 0))};
        _ ->
            Common
    end,
    {Actions, Part} = heal_part:new(Settings),
    Running = Sim#sim{nodes = Nodes#{Name := Node#node{part = Part, own = Own, is_hung = false, backlog = [], outbox = heal_outbox:new()}}},
    Begun = heal_sim_disk:started(Name, acted(Name, Actions, mark_run(Name, Count, Running))),
    Ticking = heal_sim_trace:at(rand:uniform(100), {tick, Name, {Life, element(2, Life), Count}}, Begun),
    Dead = [{Term, heal_row:owner(Row)} || {Term, Row = #row{pid = Pid}} <- maps:to_list(Own),
                                           not heal_sim_world:is_alive(Pid)],
    lists:foldl(fun({Term, Owner}, Sum) -> event(Name, {died, Term, Owner}, Sum) end, Ticking, lists:sort(Dead)).

%% The registrations that a registry which starts again answers for: those that its table shows, and those that it has kept.
owned(Life, Table, Kept) ->
    Shown = maps:from_list([{Term, Row} || {Term, {Row = #row{home = Home}, shown}} <- maps:to_list(Table), Home =:= Life]),
    maps:merge(Shown, Kept).

connected(Name, #sim{nodes = Nodes, links = Links}) ->
    [Other || Other <- lists:sort(maps:keys(Nodes)), Other =/= Name, is_map_key(heal_sim_net:pair(Name, Other), Links)].

acted(Name, Actions, Sim) ->
    heal_sim_acts:drained(Name, heal_sim_acts:positioned(Name, heal_sim_acts:actions(Name, Actions, Sim))).

mark_run(Name, Count, Sim = #sim{nodes = Nodes}) ->
    #{Name := Node = #node{life = Life, kept = Kept}} = Nodes,
    Sim#sim{nodes = Nodes#{Name := Node#node{kept = Kept#{run => {Life, element(2, Life), Count}}}}}.

play(Sim = #sim{queue = Queue}) ->
    {{Now, _}, Event, Rest} = gb_trees:take_smallest(Queue),
    Next = Sim#sim{queue = Rest, now = Now},
    put(last_sim, Next),
    case Event of
        {look, Last} -> look(Last, Next);
        _ -> play(step(Event, Next))
    end.

%% Ends the schedule when nothing has changed for a while, or after a long time.
look(Last, Sim = #sim{nodes = Nodes, now = Now, calls = Calls}) ->
    Positions = [heal_state:at(Part) || #node{part = Part} <- maps:values(Nodes)],
    case {lists:usort(Positions), map_size(Calls)} of
        {[_] = One, 0} when One =:= Last, Sim#sim.is_calm -> Sim;
        {[_] = One, 0} when One =:= Last -> play(calm(Sim));
        _ when Now > ?FAULTY + ?QUIET -> Sim;
        {All, _} -> play(heal_sim_trace:at(?LOOK, {look, All}, Sim))
    end.

step({deliver, Name, From, Epoch, Run, Body}, Sim = #sim{nodes = Nodes}) ->
    case Nodes of
        #{Name := #node{life = Run}} -> heal_sim_net:receive_message(Name, From, Epoch, Body, Sim);
        _ -> Sim
    end;
step({written, Name, Run, Written}, Sim = #sim{nodes = Nodes}) ->
    case Nodes of
        #{Name := #node{life = Run}} -> heal_sim_disk:written(Name, Written, Sim);
        _ -> Sim
    end;
step(calm, Sim) ->
    heal_sim_calls:client(rand:uniform(12), Sim);
step({link, Name, Run, Event}, Sim = #sim{nodes = Nodes}) ->
    case Nodes of
        #{Name := #node{life = Run}} -> event(Name, Event, Sim);
        _ -> Sim
    end;
step({tick, Name, Run}, Sim = #sim{nodes = Nodes}) ->
    case Nodes of
        #{Name := #node{part = Part, kept = #{run := Run}}} when Part =/= none ->
            Late = case rand:uniform(50) of 1 when not Sim#sim.is_quiet -> 1500; _ -> 0 end,
            heal_sim_trace:at(50 + rand:uniform(100) + Late, {tick, Name, Run}, event(Name, tick, Sim));
        _ ->
            Sim
    end;
step({refused, From, Run, To, Body}, Sim) ->
    heal_sim_net:refused(From, Run, To, Body, Sim);
step({drained, From, To, Epoch}, Sim) ->
    heal_sim_net:drained(From, To, Epoch, Sim);
step({outbox, Name, What}, Sim) ->
    heal_sim_acts:outbox(Name, What, Sim);
step({died, Pid}, Sim) ->
    heal_sim_net:ended(Pid, Sim);
step({up_again, Name}, Sim) ->
    heal_sim_net:resume(Name, Sim);
step(fault, Sim = #sim{is_quiet = true}) ->
    Sim;
step(fault, Sim) ->
    heal_sim_trace:at(rand:uniform(1500), fault, heal_sim_net:fault(rand:uniform(14), Sim));
step(client, Sim = #sim{is_quiet = true}) ->
    Sim;
step(client, Sim) ->
    heal_sim_trace:at(rand:uniform(60), client, heal_sim_calls:client(rand:uniform(12), Sim));
step({restore, A, B}, Sim) ->
    heal_sim_net:restore(A, B, Sim);
step(prompt, Sim = #sim{is_patient = false}) ->
    Sim;
step(prompt, Sim = #sim{nodes = Nodes}) ->
    %% All nodes know that they are one part.
    Names = lists:sort(maps:keys(Nodes)),
    case lists:usort([{heal_state:view(Part), heal_view:members(Part)} || #node{part = Part} <- maps:values(Nodes)]) of
        [{_, Names}] -> Sim;
        Different -> heal_sim_trace:broken(prompt, Different, Sim)
    end;
step(quiet, Sim = #sim{nodes = Nodes}) ->
    Names = lists:sort(maps:keys(Nodes)),
    Quiet = heal_sim_trace:trace("quiet", [], Sim#sim{is_quiet = true, faults = #{lost => 0, twice => 0, late => 0, full => 0, delay => 2}}),
    Resumed = heal_sim_trace:at(?LOOK, {look, none}, lists:foldl(fun heal_sim_net:resume/2, Quiet, Names)),
    lists:foldl(fun({A, B}, Sum) -> heal_sim_net:restore(A, B, Sum) end, Resumed, pairs(Names)).

%% All nodes are one part. Calls that follow have answers for sure.
calm(Sim) ->
    Calm = heal_sim_trace:trace("calm", [], Sim#sim{is_calm = true}),
    lists:foldl(fun(_, Sum) -> heal_sim_trace:at(rand:uniform(400), calm, Sum) end, heal_sim_trace:at(?LOOK, {look, none}, Calm), lists:seq(1, ?CALM)).

%% A node handles an event, unless it hangs.
event(Name, Event, Sim = #sim{nodes = Nodes}) ->
    case Nodes of
        #{Name := Node = #node{is_hung = true, backlog = Backlog}} ->
            Sim#sim{nodes = Nodes#{Name := Node#node{backlog = [Event | Backlog]}}};
        #{Name := #node{part = none}} ->
            Sim;
        #{Name := Node} ->
            handled(Name, Node, Event, Sim)
    end.

handled(Name, Node = #node{part = Part, offset = Offset, rate = Rate}, Event, Sim = #sim{nodes = Nodes, now = Now}) ->
    Traced = case Event of
        tick -> Sim;
        _ -> heal_sim_trace:trace("~p <- ~s", [Name, {short, Event}], Sim)
    end,
    {Actions, Next} = heal_part:handle(Event, Offset + trunc(Now * Rate), Part),
    Running = Traced#sim{nodes = Nodes#{Name := Node#node{part = Next}}},
    case Actions =/= [] andalso crashes(?WRITES, Name, Running) of
        true -> heal_sim_net:crash(Name, heal_sim_acts:actions(Name, Actions, rand:uniform(length(Actions) + 1) - 1, Running));
        false -> acted(Name, Actions, Part, Next, Running)
    end.

%% A registry may fail after any of its actions, before it has written the position.
crashes(Rate, Name, Sim) ->
    not Sim#sim.is_quiet andalso rand:uniform(Rate) =:= 1 andalso heal_sim_net:may_crash(Name, Sim).

acted(Name, Actions, Part, Next, Running) ->
    Acted = acted(Name, Actions, Running),
    Checked = case Next#part.replica =:= Part#part.replica of
        true -> Acted;
        false -> heal_sim_calls:check_position(Name, Acted)
    end,
    ok = heal_sim_calls:check_home(Name, Checked),
    steps(Name, [Step || Step = {continue, _} <- Actions], Checked).

%% A registry may fail between two steps.
steps(_Name, [], Sim) ->
    Sim;
steps(Name, [Step | Later], Sim) ->
    case crashes(?STEPS, Name, Sim) of
        true -> heal_sim_net:crash(Name, Sim);
        false -> steps(Name, Later, event(Name, Step, Sim))
    end.
