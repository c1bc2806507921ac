%% What the simulator does with the actions of a node.
-module(heal_sim_acts).

-include("heal_sim.hrl").

-export([actions/3, actions/4, drained/2, outbox/3, positioned/2, process/3, update/3]).

actions(Name, Actions, Sim) ->
    actions(Name, Actions, length(Actions), Sim).

%% Does this number of these actions. A registry marks its position before it writes rows.
actions(Name, Actions, Count, Sim) ->
    Marked = case lists:any(fun changes/1, Actions) of
        true -> update(Name, fun(Node = #node{kept = Kept}) -> Node#node{kept = Kept#{is_exact => false}} end, Sim);
        false -> Sim
    end,
    lists:foldl(fun(Action, Sum) -> action(Action, Name, Sum) end, Marked, lists:sublist(Actions, Count)).

changes({keep, Key, _}) -> Key =:= known;
changes(Action) -> lists:member(element(1, Action), [rows, restoring, ended]).

action({send, To, Body}, From, Sim = #sim{nodes = Nodes}) ->
    #{From := #node{outbox = Outbox}} = Nodes,
    case heal_wire:is_of_edit(Body) of
        true -> sent(From, heal_outbox:put(To, Body, Outbox), Sim);
        false -> heal_sim_net:send(From, To, Body, sent(From, heal_outbox:flush(To, Outbox), Sim))
    end;
action({again, To, Bodies}, From, Sim) ->
    lists:foldl(fun(Body, Sum) -> heal_sim_net:send(From, To, Body, Sum) end, Sim, Bodies);
action({post, To, Entries}, From, Sim = #sim{nodes = Nodes}) ->
    #{From := #node{outbox = Outbox}} = Nodes,
    timed(From, heal_outbox:post(To, Entries, Outbox), Sim);
action({later, Step}, Name, Sim = #sim{nodes = Nodes}) ->
    #{Name := #node{life = Life}} = Nodes,
    heal_sim_trace:at(rand:uniform(?BUSY), {link, Name, Life, {continue, Step}}, Sim);
action({reply, From, Answer}, Name, Sim) ->
    heal_sim_calls:reply(From, Answer, Name, Sim);
action({rows, Put, Drop}, Name, Sim) ->
    Checked = lists:foldl(fun({_, Row}, Sum) -> seen(Row, Name, Sum) end, Sim, Put),
    update(Name, fun(Node = #node{table = Table}) ->
        Rows = maps:from_list([{Key, {Row, shown}} || {Key, Row} <- Put]),
        Node#node{table = maps:merge(maps:without(Drop, Table), Rows)}
    end, Checked);
action({restoring, Rows}, Name, Sim) ->
    update(Name, fun(Node = #node{table = Table}) ->
        Node#node{table = maps:merge(Table, maps:from_list([{Term, {Row, restoring}} || {Term, Row} <- Rows]))}
    end, action({keep_own, Rows}, Name, Sim));
action({hide, Term}, Name, Sim) ->
    update(Name, fun(Node = #node{table = Table}) ->
        case Table of
            #{Term := {Row, shown}} -> Node#node{table = Table#{Term := {Row, hidden}}};
            _ -> Node
        end
    end, Sim);
action({own, Term, Row = #row{pid = Pid}}, Name, Sim) ->
    Owned = update(Name, fun(Node = #node{own = Own}) -> Node#node{own = Own#{Term => Row}} end, Sim),
    Known = process(Pid, fun(Process) -> Process#process{owner = heal_row:owner(Row)} end, Owned),
    case heal_sim_world:is_alive(Pid) of
        true -> Known;
        false -> heal_sim_trace:at(1, {died, Pid}, Known)
    end;
action({ended, Term, Row}, Name, Sim) ->
    update(Name, fun(Node = #node{table = Table}) -> Node#node{table = Table#{Term => {Row, hidden}}} end, seen(Row, Name, Sim));
action({disown, Term, #row{pid = Pid}}, Name, Sim) ->
    Traced = heal_sim_trace:trace("~p disowns ~0p ~p", [Name, Term, Pid], Sim),
    Rest = update(Name, fun(Node = #node{own = Own, table = Table, kept = Kept}) ->
        Rows = case Table of #{Term := {_, restoring}} -> maps:remove(Term, Table); _ -> Table end,
        Node#node{own = maps:remove(Term, Own), table = Rows, kept = Kept#{own => maps:remove(Term, maps:get(own, Kept, #{}))}}
    end, Traced),
    %% A caller may have unregistered it: also one whose answer is still to come, or whose request a node that hung carries out late.
    case heal_sim_calls:is_unregistered(Term) of
        true -> process(Pid, fun heal_sim_calls:doubtful/1, Rest);
        false -> Rest
    end;
action({lost, Losers}, Name, Sim) ->
    [_ | _] = Losers,
    lists:foldl(fun({Term, Row, Loss}, Sum) -> notified(Row, Loss, Name, action({disown, Term, Row}, Name, Sum)) end, Sim, Losers);
action({keep_own, Rows}, Name, Sim) ->
    [_ | _] = Rows,
    update(Name, fun(Node = #node{own = Own, kept = Kept}) ->
        Changed = lists:foldl(fun({Term, Row}, Sum) -> Sum#{Term := Row} end, Own, Rows),
        Node#node{own = Changed, kept = Kept#{own => maps:merge(maps:get(own, Kept, #{}), maps:from_list(Rows))}}
    end, Sim);
action({forget_own, Terms}, Name, Sim) ->
    [_ | _] = Terms,
    update(Name, fun(Node = #node{kept = Kept}) -> Node#node{kept = Kept#{own => maps:without(Terms, maps:get(own, Kept, #{}))}} end, Sim);
action({keep, Key, Value}, Name, Sim) ->
    heal_sim_disk:kept(Key, Value, Name, update(Name, fun(Node = #node{kept = Kept}) -> Node#node{kept = Kept#{Key => Value}} end, Sim));
action({view, View, Members}, Name, Sim) ->
    heal_sim_trace:trace("~p is in view ~p of ~p", [Name, View, Members], Sim);
action(_Reported, _Name, Sim) ->
    Sim.

%% Sends what the outbox of a node has given out.
sent(From, {Bodies, Outbox}, Sim) ->
    Kept = update(From, fun(Node) -> Node#node{outbox = Outbox} end, Sim),
    lists:foldl(fun({To, Body}, Sum) -> heal_sim_net:send(From, To, Body, Sum) end, Kept, Bodies).

timed(Name, {StartTimer, Outbox}, Sim) ->
    Kept = update(Name, fun(Node) -> Node#node{outbox = Outbox} end, Sim),
    case StartTimer of
        true -> heal_sim_trace:at(rand:uniform(?POSTED), {outbox, Name, expired}, Kept);
        false -> Kept
    end.

%% The timer of a node's outbox has expired, or the node has handled all its messages. A node that hangs does so later.
outbox(Name, What, Sim = #sim{nodes = Nodes}) ->
    case Nodes of
        #{Name := #node{part = none}} -> Sim;
        #{Name := #node{is_hung = true}} -> heal_sim_trace:at(?POSTED, {outbox, Name, What}, Sim);
        #{Name := #node{outbox = Outbox}} when What =:= expired -> drained(Name, timed(Name, heal_outbox:expired(Outbox), Sim));
        #{Name := #node{outbox = Outbox}} -> sent(Name, heal_outbox:drain(Outbox), Sim)
    end.

%% After some of its events a node has more messages to handle before it sends.
drained(Name, Sim = #sim{nodes = Nodes}) ->
    #{Name := #node{outbox = Outbox}} = Nodes,
    case heal_outbox:turn(Outbox) =:= drained orelse rand:uniform(3) of
        true -> Sim;
        1 -> heal_sim_trace:at(rand:uniform(?BUSY), {outbox, Name, drain}, Sim);
        _ -> outbox(Name, drain, Sim)
    end.

notified(#row{pid = Pid, term = Term, home = {Home, _}}, {{Kind, _}, _Rival}, Name, Sim = #sim{processes = Processes}) ->
    #{Pid := Process = #process{notices = Notices}} = Processes,
    Traced = heal_sim_trace:trace("~p notifies ~p of ~p by ~p", [Name, Pid, Term, Kind], Sim),
    Notices =:= 0 orelse heal_sim_trace:broken(one_notice, {Pid, Term}, Traced),
    Home =:= Name orelse heal_sim_trace:broken(notice_from_home, {Pid, Term, Name}, Traced),
    Told = Traced#sim{processes = Processes#{Pid := Process#process{notices = 1}}},
    case Kind of
        exit -> heal_sim_net:ended(Pid, Told);
        _ -> Told
    end.

positioned(Name, Sim) ->
    update(Name, fun(Node = #node{part = Part, kept = Kept}) -> Node#node{kept = Kept#{position => heal_part:position(Part), is_exact => true}} end, Sim).

update(Name, Change, Sim = #sim{nodes = Nodes}) ->
    #{Name := Node} = Nodes,
    Sim#sim{nodes = Nodes#{Name := Change(Node)}}.

process(Pid, Change, Sim = #sim{processes = Processes}) ->
    #{Pid := Process} = Processes,
    Sim#sim{processes = Processes#{Pid := Change(Process)}}.

%% A registration that is refused or not made is in no table.
seen(#row{pid = Pid}, Name, Sim = #sim{processes = Processes}) ->
    case Processes of
        #{Pid := #process{state = not_made}} -> heal_sim_trace:broken(not_made, {Pid, Name}, Sim);
        _ -> Sim
    end.
