%% The callers of the simulator, and the promises that they and the tables are checked against.
-module(heal_sim_calls).

-include("heal_sim.hrl").

-export([answered/4, check_home/2, check_position/2, client/2, client/3, doubtful/1, finish/1, is_unregistered/1, reply/4]).

client(N, Sim = #sim{nodes = Nodes}) ->
    Name = heal_sim_net:any(heal_sim_net:names(Sim)),
    case Nodes of
        #{Name := #node{part = none}} -> Sim;
        #{Name := #node{is_hung = true}} -> Sim;
        _ -> client(N, Name, Sim)
    end.

client(N, Name, Sim = #sim{next = Next, processes = Processes, now = Now}) when N =< 6 ->
    On = case rand:uniform(5) of 1 -> heal_sim_net:any(heal_sim_net:names(Sim)); _ -> Name end,
    Pid = {pid, On, Next},
    Term = any_name(),
    Options = #{stamp => 1, weight => 0, extra => <<0:128>>, resolver => heal_sim_net:any([exit, notify, notify, notify_all])},
    Known = Sim#sim{processes = Processes#{Pid => #process{name = Term, node = On, asked = Now}}},
    Runs = case maps:get(On, Sim#sim.nodes) of #node{part = none} -> false; _ -> true end,
    Runs orelse heal_sim_world:end_process(Pid),
    call(Name, {register, Pid}, {adopt, Term, Term, Options, Pid, On}, Known);
client(N, Name, Sim) when N =< 8 ->
    Term = heal_sim_net:any([Of || Of <- terms(), is_unregistered(Of)]),
    call(Name, {unregister, Term}, {unregister, Term, any}, Sim);
client(9, Name, Sim = #sim{next = Next}) ->
    Id = <<Next:256>>,
    call(Name, {upload, Id}, {upload, Id, <<Next:64>>}, Sim);
client(N, Name, Sim = #sim{next = Next}) when N >= 11 ->
    %% The weight shows which change it was.
    Term = any_name(),
    Resolver = case rand:uniform(10) of 1 -> {program, <<0:256>>}; _ -> heal_sim_net:any([exit, notify, notify_all]) end,
    Changes = case rand:uniform(2) of 1 -> #{weight => Next, resolver => Resolver}; 2 -> #{weight => Next} end,
    call(Name, {change, Term, Changes}, {change, Term, any, Changes}, Sim);
client(_, Name, Sim = #sim{nodes = Nodes}) ->
    #{Name := #node{own = Own}} = Nodes,
    case lists:sort([Pid || #row{pid = Pid} <- maps:values(Own), heal_sim_world:is_alive(Pid)]) of
        [] -> Sim;
        Pids -> heal_sim_net:ended(heal_sim_net:any(Pids), Sim)
    end.

any_name() ->
    heal_sim_net:any(terms()).

terms() ->
    [<<"n", ($0 + N)>> || N <- lists:seq(1, ?NAMES)].

%% Callers unregister only some of the names, so that whoever loses another one has lost it by a clash or by its end.
is_unregistered(<<"n", N>>) ->
    N rem 2 =:= 0.

call(Name, Call, Edit, Sim = #sim{calls = Calls, next = Next, now = Now}) ->
    Called = Sim#sim{calls = Calls#{Next => {Name, Now, Call}}, next = Next + 1},
    heal_sim:event(Name, {call, Next, Edit}, Called).

reply(From, Answer, Name, Sim = #sim{calls = Calls, now = Now, timeouts = {Edit, _}}) ->
    case maps:take(From, Calls) of
        {{Name, Since, Call}, Rest} ->
            Traced = heal_sim_trace:trace("~p answers ~p ~p: ~p", [Name, From, Call, Answer], Sim#sim{calls = Rest}),
            Now - Since =< Edit + ?SLOWEST orelse heal_sim_trace:broken(answer_in_time, {Call, Now - Since}, Traced),
            answered(Call, Answer, Name, Traced#sim{since = Since});
        _ ->
            heal_sim_trace:broken(one_answer, {From, Answer}, Sim)
    end.

answered({upload, Id}, {ok, Id}, Name, Sim = #sim{uploads = Uploads}) ->
    heal_sim_disk:has(Name, Id, Sim) orelse heal_sim_trace:broken(stored_before_answered, {Name, Id}, Sim),
    Sim#sim{uploads = [{Name, Id} | Uploads]};
answered({upload, _Id}, {error, {_, _}}, _Name, Sim = #sim{is_calm = false}) ->
    Sim;
answered(Call, Answer = {error, {_, _}}, _Name, Sim = #sim{is_calm = true}) ->
    heal_sim_trace:broken(sure_answer, {Call, Answer}, Sim);
answered({register, Pid}, ok, Name, Sim = #sim{nodes = Nodes, processes = Processes}) ->
    #{Pid := #process{name = Term}} = Processes,
    #{Name := #node{table = Table}} = Nodes,
    case Table of
        #{Term := {#row{pid = Pid}, _}} -> ok;
        %% Another caller may have unregistered it since, or the process's node has left the part, was dropped and restores it, or has yet to
        %% hear that it was dropped.
        _ -> is_unregistered(Term) orelse not heal_sim_world:is_alive(Pid) orelse not are_together(Name, element(2, Pid), Sim)
            orelse is_restoring(Term, Pid, Sim) orelse is_ahead(Name, Term, Pid, Sim) orelse heal_sim_trace:broken(reads_its_writes, {Pid, Name, maps:get(Term, Table, none)}, Sim)
    end,
    heal_sim_acts:process(Pid, fun(Process) -> Process#process{state = acknowledged} end, Sim);
answered({register, Pid}, {error, {_, unknown}}, _Name, Sim) ->
    heal_sim_acts:process(Pid, fun(Process) -> Process#process{state = unknown} end, Sim);
answered({register, Pid}, {error, {_, not_made}}, _Name, Sim) ->
    heal_sim_acts:process(Pid, fun(Process) -> Process#process{state = not_made} end, Sim);
answered({register, Pid}, {error, _}, _Name, Sim) ->
    heal_sim_acts:process(Pid, fun(Process) -> Process#process{state = refused} end, Sim);
answered({unregister, Term}, {ok, Owner}, Name, Sim = #sim{nodes = Nodes}) ->
    #{Name := #node{table = Table}} = Nodes,
    case Table of
        #{Term := {Row, How}} when How =/= hidden -> heal_row:owner(Row) =/= Owner orelse heal_sim_trace:broken(reads_its_writes, {Term, Owner}, Sim);
        _ -> ok
    end,
    each(fun(_, Process = #process{owner = Of}) when Of =:= Owner -> Process#process{until = unregistered}; (_, P) -> P end, Sim);
answered({unregister, _Term}, {error, 31}, _Name, Sim) ->
    Sim;
answered({change, Term, #{resolver := {program, _}}}, {ok, Owner}, _Name, Sim) ->
    heal_sim_trace:broken(unknown_program, {Term, Owner}, Sim);
answered({change, _Term, #{weight := Weight}}, {ok, Owner}, _Name, Sim = #sim{since = Since, now = Now, perhaps = Perhaps}) ->
    %% A change that is repeated in another view may be made of an earlier process too.
    each(fun(_, Process = #process{owner = Of, weights = Weights}) when Of =:= Owner ->
            Process#process{weights = [{Weight, Since, Now} | Weights]};
        (_, Process) -> Process
    end, Sim#sim{perhaps = [{Weight, Owner} | Perhaps]});
answered({change, _Term, Changes}, {error, Number}, _Name, Sim) when Number =:= 31; Number =:= 41, is_map_key(resolver, Changes) ->
    Sim;
answered({change, _Term, #{weight := Weight}}, {error, {_, unknown}}, _Name, Sim = #sim{perhaps = Perhaps}) ->
    Sim#sim{perhaps = [{Weight, none} | Perhaps]};
answered({change, Term, _Changes}, {error, {_, not_made}}, _Name, Sim) ->
    heal_sim_trace:trace("~p not changed", [Term], Sim);
answered({unregister, Term}, {error, {_, not_made}}, _Name, Sim) ->
    heal_sim_trace:trace("~p not unregistered", [Term], Sim);
answered({unregister, Term}, {error, {_, unknown}}, _Name, Sim) ->
    heal_sim_trace:trace("~p perhaps unregistered", [Term], Sim).

doubtful(Process = #process{until = none}) -> Process#process{until = doubtful};
doubtful(Process) -> Process.

is_restoring(Term, Pid = {pid, On, _}, #sim{nodes = Nodes}) ->
    #{On := #node{table = Table}} = Nodes,
    case Table of
        #{Term := {#row{pid = Pid}, restoring}} -> true;
        _ -> false
    end.

%% Returns whether a node has entries of its view that the process's node lacks, which finds the process.
is_ahead(Name, Term, Pid = {pid, On, _}, #sim{nodes = Nodes}) ->
    #{Name := #node{part = Part}, On := #node{part = Home, table = Table}} = Nodes,
    case {heal_state:at(Part), heal_state:at(Home), Table} of
        {{View, Operation}, {View, Earlier}, #{Term := {#row{pid = Pid}, _}}} -> Earlier < Operation;
        _ -> false
    end.

%% Do both nodes follow one view, and has its primary heard so of the second one?
are_together(One, Other, #sim{nodes = Nodes}) ->
    case {Nodes, view_of(One, Nodes)} of
        {_, none} -> false;
        {_, View = {{Primary, _}, _}} ->
            #{Primary := #node{part = Part}} = Nodes,
            view_of(Other, Nodes) =:= View andalso view_of(Primary, Nodes) =:= View
                andalso (Primary =:= Other orelse is_joined(maps:get(Other, Part#part.members, none)))
    end.

view_of(Name, Nodes) ->
    case Nodes of
        #{Name := #node{part = none}} -> none;
        #{Name := #node{part = Part}} -> heal_state:view(Part)
    end.

is_joined(#member{is_joined = IsJoined}) -> IsJoined;
is_joined(none) -> false.

each(Change, Sim = #sim{processes = Processes}) ->
    Sim#sim{processes = maps:map(Change, Processes)}.

%% Two nodes that are at one position have one table and the same programs.
check_position(Name, Sim = #sim{nodes = Nodes, positions = Positions}) ->
    #{Name := #node{part = #part{replica = Replica}}} = Nodes,
    At = heal_replica:position(Replica),
    #half{names = Names, programs = Programs} = heal_replica:half(Replica),
    Hash = erlang:phash2({Names, lists:sort(maps:keys(Programs))}),
    case Positions of
        #{At := Hash} -> Sim;
        #{At := _} -> heal_sim_trace:broken(one_table_at_a_position, {Name, At}, Sim);
        _ -> Sim#sim{positions = Positions#{At => Hash}}
    end.

%% A node finds the living processes that it answers for, unless an exchange has given the name away, or the replica has a registration
%% under the name that this node answers for no more.
check_home(Name, Sim = #sim{nodes = Nodes}) ->
    #{Name := #node{table = Table, own = Own, part = Part = #part{lost = Lost}}} = Nodes,
    [is_found(Pid, maps:get(Term, Table, none), heal_state:life(Part)) orelse heal_sim_trace:broken(found_at_home, {Pid, Term, Name}, Sim)
     || {Term, #row{pid = Pid}} <- maps:to_list(Own), not is_map_key(Term, Lost), heal_sim_world:is_alive(Pid)],
    ok.

is_found(Pid, {#row{pid = Pid}, How}, _Life) -> How =/= hidden;
is_found(_Pid, {#row{home = Life}, hidden}, Life) -> true;
is_found(_Pid, _Other, _Life) -> false.

finish(Sim = #sim{nodes = Nodes, processes = Processes, positions = Positions}) ->
    Parts = [{Name, Node} || {Name, Node} <- lists:sort(maps:to_list(Nodes))],
    [{_, #node{part = First, table = Table}} | _] = Parts,
    Position = heal_state:at(First),
    [heal_state:at(Part) =:= Position orelse heal_sim_trace:broken(one_part, positions(Parts), Sim) || {_, #node{part = Part}} <- Parts],
    [Of =:= Table orelse heal_sim_trace:broken(one_table, {Name, Of, Table}, Sim) || {Name, #node{table = Of}} <- Parts],
    [heal_sim_world:is_alive(Pid) orelse heal_sim_trace:broken(living, {Pid, Term}, Sim)
     || {Term, {#row{pid = Pid}, _}} <- maps:to_list(Table)],
    [hidden =/= How orelse heal_sim_trace:broken(shown, Term, Sim) || {Term, {_, How}} <- maps:to_list(Table)],
    [check(Pid, Process, Table, Sim) || {Pid, Process} <- lists:sort(maps:to_list(Processes))],
    #sim{calls = Calls, uploads = Uploads} = Sim,
    #half{programs = Programs} = heal_state:half(First),
    [is_map_key(Id, Programs) orelse heal_sim_trace:broken(upload_is_kept, Id, Sim) || {_, Id} <- Uploads],
    map_size(Calls) =:= 0 orelse heal_sim_trace:broken(every_call_is_answered, Calls, Sim),
    #{processes => map_size(Processes), positions => map_size(Positions),
      notices => length([told || #process{notices = 1} <- maps:values(Processes)])}.

positions(Parts) ->
    [{Name, heal_state:at(Part), Part#part.heal} || {Name, #node{part = Part}} <- Parts].

check(Pid, Process = #process{name = Term, state = State, until = Until, notices = Notices}, Table, Sim) ->
    Has = case Table of #{Term := {#row{pid = Pid}, _}} -> true; _ -> false end,
    IsAlive = heal_sim_world:is_alive(Pid),
    if
        Has, Notices > 0 -> heal_sim_trace:broken(loser_has_no_name, {Pid, Process}, Sim);
        Has, Until =:= unregistered -> heal_sim_trace:broken(unregistered_for_good, {Pid, Process}, Sim);
        Has, State =:= not_made; Has, State =:= refused -> heal_sim_trace:broken(not_made, {Pid, Process}, Sim);
        not Has, IsAlive, State =:= acknowledged, Until =:= none, Notices =:= 0 -> heal_sim_trace:broken(acknowledged_is_kept, {Pid, Process}, Sim);
        Has -> check_weight(Pid, Process, maps:get(Term, Table), Sim);
        true -> ok
    end.

%% The registration has the last change, or one that was made at the same time, or one that may be made at any time.
check_weight(Pid, #process{weights = Weights, owner = Owner}, {#row{alike = {_, Weight, _, _}}, _}, Sim) ->
    Last = [0 || Weights =:= []] ++ [Of || {Of, _, Answered} <- Weights, [] =:= [later || {_, Called, _} <- Weights, Called > Answered]],
    Perhaps = [Of || {Of, By} <- Sim#sim.perhaps, By =/= Owner],
    lists:member(Weight, Last ++ Perhaps) orelse heal_sim_trace:broken(change_is_kept, {Pid, Weight, Weights}, Sim).
