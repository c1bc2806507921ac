%% The network of the simulator, and the faults of its nodes and links.
-module(heal_sim_net).

-include("heal_sim.hrl").

-export([any/1, crash/2, drained/4, ended/2, fault/2, may_crash/2, names/1, pair/2, receive_message/5, refused/5, restore/3, resume/2, send/4]).

pair(A, B) when A < B -> {A, B};
pair(A, B) -> {B, A}.

send(From, To, Body, Sim = #sim{links = Links, faults = #{lost := Lost, twice := Twice, late := Late}}) ->
    case Links of
        #{{From, To} := Epoch} -> offer(From, To, Epoch, Body, {Lost, Twice, Late}, Sim);
        #{{To, From} := Epoch} -> offer(From, To, Epoch, Body, {Lost, Twice, Late}, Sim);
        _ -> Sim
    end.

%% A connection that is full refuses messages. Some messages fill it.
offer(From, To, Epoch, Body, Rates, Sim = #sim{full = Full, nodes = Nodes, now = Now, last = Last}) ->
    case Full of
        #{{From, To} := Epoch} ->
            #{From := #node{kept = #{run := Run}}} = Nodes,
            Time = max(Now + rand:uniform(?BUSY), maps:get({From, refused}, Last, 0)),
            Traced = heal_sim_trace:trace("~p -> ~p refused ~s", [From, To, {short, Body}], Sim#sim{last = Last#{{From, refused} => Time}}),
            heal_sim_trace:at(Time - Now, {refused, From, Run, To, Body}, Traced);
        _ ->
            filled(From, To, Epoch, Body, transmit(From, To, Epoch, Body, Rates, Sim))
    end.

filled(From, To, Epoch, Body, Sim = #sim{faults = #{full := Rate}, full = Full}) ->
    Fills = case element(1, Body) of Kind when Kind =:= snapshot; Kind =:= difference; Kind =:= offer -> 10 * Rate; _ -> Rate end,
    case rand:uniform(1000) =< Fills of
        true ->
            Longest = case rand:uniform(8) of 1 -> 4 * ?FULL; _ -> ?FULL end,
            heal_sim_trace:at(rand:uniform(Longest), {drained, From, To, Epoch}, Sim#sim{full = Full#{{From, To} => Epoch}});
        false -> Sim
    end.

%% The registry learns what was refused after the messages that had arrived.
refused(From, Run, To, Body, Sim = #sim{nodes = Nodes}) ->
    case Nodes of
        #{From := #node{kept = #{run := Run}}} -> heal_sim:event(From, {refused, To, [Body]}, Sim);
        _ -> Sim
    end.

%% A connection takes messages again, once the registry has learned what it refused.
drained(From, To, Epoch, Sim = #sim{full = Full, now = Now, last = Last, nodes = Nodes}) ->
    case {maps:take({From, To}, Full), maps:get({From, refused}, Last, 0) >= Now} of
        {{Epoch, _}, true} ->
            heal_sim_trace:at(1, {drained, From, To, Epoch}, Sim);
        {{Epoch, Rest}, false} ->
            #{From := #node{life = Life}} = Nodes,
            Drained = heal_sim:event(From, {drained, To}, Sim#sim{full = Rest}),
            heal_sim_trace:at(rand:uniform(?RESTED), {link, From, Life, {rested, To}}, Drained);
        _ ->
            Sim
    end.

transmit(From, To, Epoch, Body, {Lost, Twice, Late}, Sim) ->
    case rand:uniform(1000) of
        N when N =< Lost -> heal_sim_trace:trace("~p -> ~p lost ~s", [From, To, {short, Body}], Sim);
        N when N =< Lost + Twice -> deliver(From, To, Epoch, Body, deliver(From, To, Epoch, Body, Sim));
        N when N =< Lost + Twice + Late -> late(From, To, Body, Sim);
        _ -> deliver(From, To, Epoch, Body, Sim)
    end.

%% Messages of a channel arrive in their order.
deliver(From, To, Epoch, Body, Sim = #sim{now = Now, last = Last, faults = #{delay := Delay}, nodes = Nodes}) ->
    Time = max(Now + rand:uniform(Delay), maps:get({From, To}, Last, 0)),
    #{To := #node{life = Life}} = Nodes,
    heal_sim_trace:at(Time - Now, {deliver, To, From, Epoch, Life, Body}, Sim#sim{last = Last#{{From, To} => Time}}).

%% This one arrives out of order, and perhaps after a reconnection.
late(From, To, Body, Sim = #sim{nodes = Nodes}) ->
    #{To := #node{life = Life}} = Nodes,
    heal_sim_trace:at(rand:uniform(4000), {deliver, To, From, any, Life, Body}, Sim).

receive_message(_Name, _From, any, _Body, Sim = #sim{is_calm = true}) ->
    Sim;
receive_message(Name, From, any, Body, Sim) ->
    heal_sim:event(Name, {message, From, Body}, Sim);
receive_message(Name, From, Epoch, Body, Sim = #sim{links = Links}) ->
    %% What is under way when a link is cut may arrive or be lost.
    Pair = pair(Name, From),
    case Links of
        #{Pair := Epoch} -> heal_sim:event(Name, {message, From, Body}, Sim);
        _ -> Sim
    end.

restore(A, B, Sim = #sim{links = Links, epoch = Epoch, nodes = Nodes}) ->
    #{A := #node{part = One}, B := #node{part = Other}} = Nodes,
    case is_map_key({A, B}, Links) orelse One =:= none orelse Other =:= none of
        true -> Sim;
        false ->
            Linked = heal_sim_trace:trace("link ~p ~p", [A, B], Sim#sim{links = Links#{{A, B} => Epoch + 1}, epoch = Epoch + 1}),
            announce(A, {up, B, visible}, announce(B, {up, A, visible}, Linked))
    end.

cut(A, B, Sim = #sim{links = Links}) ->
    case maps:take({A, B}, Links) of
        {_, Rest} ->
            Cut = heal_sim_trace:trace("cut ~p ~p", [A, B], Sim#sim{links = Rest}),
            lost(A, B, lost(B, A, announce(A, {down, B}, announce(B, {down, A}, Cut))));
        error ->
            Sim
    end.

%% A node that answers for processes of another one takes them for ended when the link to it is cut.
lost(Name, On, Sim = #sim{nodes = Nodes}) ->
    #{Name := #node{own = Own}} = Nodes,
    Lose = fun({Term, Row}, Sum) -> announce(Name, On, {died, Term, heal_row:owner(Row)}, doubtful([Row], Sum)) end,
    lists:foldl(Lose, Sim, lists:sort([Owned || Owned = {_, #row{pid = {pid, Of, _}}} <- maps:to_list(Own), Of =:= On])).

%% A node learns of a link a while later, after the messages that arrived before.
announce(Name, Event, Sim) ->
    announce(Name, element(2, Event), Event, Sim).

announce(Name, Other, Event, Sim) ->
    informed(Name, Other, Event, 100, Sim).

informed(Name, Other, Event, Delay, Sim = #sim{now = Now, last = Last, nodes = Nodes}) ->
    Time = max(Now + rand:uniform(Delay), maps:get({Other, Name}, Last, 0)),
    #{Name := #node{life = Life}} = Nodes,
    heal_sim_trace:at(Time - Now, {link, Name, Life, Event}, Sim#sim{last = Last#{{Other, Name} => Time}}).

any(List) ->
    lists:nth(rand:uniform(length(List)), List).

names(#sim{nodes = Nodes}) ->
    lists:sort(maps:keys(Nodes)).

fault(N, Sim) when N =< 3 ->
    {A, B} = any(heal_sim:pairs(names(Sim))),
    cut(A, B, Sim);
fault(4, Sim) ->
    %% A split into two sides.
    Side = [Name || Name <- names(Sim), rand:uniform(2) =:= 1],
    lists:foldl(fun({A, B}, Sum) ->
        case lists:member(A, Side) =:= lists:member(B, Side) of true -> Sum; false -> cut(A, B, Sum) end
    end, Sim, heal_sim:pairs(names(Sim)));
fault(N, Sim) when N =< 8 ->
    lists:foldl(fun({A, B}, Sum) -> case rand:uniform(3) of 1 -> restore(A, B, Sum); _ -> Sum end end, Sim, heal_sim:pairs(names(Sim)));
fault(9, Sim) ->
    Name = any(names(Sim)),
    heal_sim_trace:at(rand:uniform(4000), {up_again, Name}, kill(Name, Sim));
fault(10, Sim = #sim{is_patient = true}) ->
    Sim;
fault(10, Sim) ->
    Name = any(names(Sim)),
    heal_sim_trace:at(rand:uniform(8000), {up_again, Name}, hang(Name, Sim));
fault(11, Sim) ->
    Name = any(names(Sim)),
    case may_crash(Name, Sim) of
        true -> crash(Name, Sim);
        false -> Sim
    end;
fault(13, Sim) ->
    %% All nodes end at once, as when the power fails.
    case rand:uniform(8) of
        1 -> lists:foldl(fun(Name, Sum) -> heal_sim_trace:at(rand:uniform(3000), {up_again, Name}, kill(Name, Sum)) end, Sim, names(Sim));
        _ -> Sim
    end;
fault(14, Sim) ->
    Name = any(names(Sim)),
    case may_crash(Name, Sim) of
        true -> heal_sim_trace:at(rand:uniform(2000), {up_again, Name}, stop(Name, Sim));
        false -> Sim
    end;
fault(12, Sim) ->
    lists:foldl(fun({A, B}, Sum) -> restore(A, B, Sum) end, Sim, heal_sim:pairs(names(Sim))).

%% The node ends, and its processes with it.
kill(Name, Sim = #sim{nodes = Nodes}) ->
    case Nodes of
        #{Name := #node{part = none}} ->
            Sim;
        _ ->
            Others = [Other || Other <- names(Sim), Other =/= Name],
            Killed = heal_sim_trace:trace("kill ~p", [Name], gone(Name, Sim)),
            Cut = lists:foldl(fun(Other, Sum) -> {A, B} = pair(Name, Other), cut(A, B, Sum) end, Killed, Others),
            all_ended(Name, forget_calls(Name, Cut))
    end.

%% The registry is stopped, and its names and their processes end. Its connections stay.
stop(Name, Sim) ->
    Told = lists:foldl(fun(Other, Sum) -> informed(stopped, Name, Other, Sum) end, Sim, heal_sim:connected(Name, Sim)),
    all_ended(Name, forget_calls(Name, heal_sim_trace:trace("stop ~p", [Name], gone(Name, Told)))).

%% What a node has in its memory is gone, and with it the names of other nodes' processes that it answered for.
gone(Name, Sim = #sim{nodes = Nodes, uploads = Uploads, has_disks = HasDisks}) ->
    #{Name := Node = #node{own = Own}} = Nodes,
    Gone = Node#node{part = none, life = dead, is_hung = false, backlog = [], table = #{}, own = #{}, kept = #{}},
    Left = Sim#sim{nodes = Nodes#{Name := Gone}, uploads = [Upload || Upload = {On, _} <- Uploads, HasDisks orelse On =/= Name]},
    doubtful([Row || Row = #row{pid = {pid, On, _}} <- maps:values(Own), On =/= Name], Left).

%% The registrations of these rows may be gone, though their processes live.
doubtful(Rows, Sim) ->
    lists:foldl(fun(#row{pid = Pid}, Sum) -> heal_sim_acts:process(Pid, fun heal_sim_calls:doubtful/1, Sum) end, Sim, Rows).

all_ended(Name, Sim = #sim{processes = Processes}) ->
    Pids = [Pid || {Pid, #process{node = On}} <- lists:sort(maps:to_list(Processes)), On =:= Name, heal_sim_world:is_alive(Pid)],
    lists:foldl(fun ended/2, Sim, Pids).

%% A node that is connected learns that a registry has failed or was stopped, before it hears from the next one.
informed(Kind, Name, Other, Sim) ->
    informed(Other, Name, {Kind, Name}, ?BUSY, Sim).

hang(Name, Sim = #sim{nodes = Nodes}) ->
    case Nodes of
        #{Name := #node{part = none}} -> Sim;
        #{Name := Node} -> heal_sim_trace:trace("hang ~p", [Name], Sim#sim{nodes = Nodes#{Name := Node#node{is_hung = true}}})
    end.

%% A node that was killed starts again, and one that hangs goes on.
resume(Name, Sim = #sim{nodes = Nodes}) ->
    case Nodes of
        #{Name := #node{part = none}} ->
            heal_sim_trace:trace("start ~p", [Name], heal_sim:start_node(Name, Sim));
        #{Name := Node = #node{is_hung = true, backlog = Backlog}} ->
            Woken = heal_sim_trace:trace("wake ~p", [Name], Sim#sim{nodes = Nodes#{Name := Node#node{is_hung = false, backlog = []}}}),
            lists:foldr(fun(Event, Sum) -> heal_sim:event(Name, Event, Sum) end, Woken, Backlog);
        _ ->
            Sim
    end.

%% Returns whether a registry may fail.
may_crash(Name, #sim{nodes = Nodes}) ->
    case Nodes of
        #{Name := #node{part = none}} -> false;
        #{Name := #node{is_hung = true}} -> false;
        _ -> true
    end.

%% The registry ends between two events and starts again.
crash(Name, Sim = #sim{nodes = Nodes}) ->
    #{Name := #node{own = Before}} = Nodes,
    Crashed = forget_calls(Name, heal_sim_trace:trace("crash ~p", [Name], Sim)),
    Told = lists:foldl(fun(Other, Sum) -> informed(failed, Name, Other, Sum) end, Crashed, heal_sim:connected(Name, Sim)),
    Started = heal_sim:start_registry(Name, Told),
    #{Name := #node{own = After}} = Started#sim.nodes,
    %% It may have failed while it unregistered a name.
    doubtful([Row || {Term, Row} <- maps:to_list(maps:without(maps:keys(After), Before)), heal_sim_calls:is_unregistered(Term)], Started).

%% The callers of a node or registry that ends receive no answer.
forget_calls(Name, Sim = #sim{calls = Calls}) ->
    Lost = maps:filter(fun(_, {On, _, _}) -> On =:= Name end, Calls),
    Kept = Sim#sim{calls = maps:without(maps:keys(Lost), Calls)},
    lists:foldl(fun({_, _, Call}, Sum) -> heal_sim_calls:answered(Call, {error, {ended, unknown}}, Name, Sum) end, Kept,
                [Value || {_, Value} <- lists:sort(maps:to_list(Lost))]).

%% A process ends, and the nodes that answer for its names know so.
ended(Pid, Sim) ->
    heal_sim_world:end_process(Pid),
    lists:foldl(fun(Name, Sum) -> ended(Name, Pid, Sum) end, heal_sim_trace:trace("ends ~p", [Pid], Sim), names(Sim)).

ended(Name, Pid, Sim = #sim{nodes = Nodes}) ->
    #{Name := #node{own = Own}} = Nodes,
    Watched = [{Term, heal_row:owner(Row)} || {Term, Row = #row{pid = Of}} <- maps:to_list(Own), Of =:= Pid],
    lists:foldl(fun({Term, Owner}, Sum) -> heal_sim:event(Name, {died, Term, Owner}, Sum) end, Sim, Watched).
