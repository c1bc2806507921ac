%% @private Connections that are full: what they refuse, and what follows once they take messages again.
%%
%% A message that a full connection refuses isn't sent. Entries, answers and what belongs to an exchange wait until the connection has room;
%% then the node announces its position, since that may have been refused too. A member for which too many entries wait gets a snapshot
%% instead, after a pause: a large one may fill the connection again. Edits wait while the connection to the primary is full, and a primary
%% for which one waits too long is given up.
-module(heal_congestion).

-include("heal_part.hrl").

-export([refused/3, overdue/1, drained/2, rested/2, is_refusing/2, is_full/2, forget/2]).

%% How many entries and other messages wait for a connection, at most.
-define(MOST, 10000).

%% A connection has refused these bodies, the newest first.
-spec refused(node(), Bodies :: [term()], #part{}) -> #part{}.
refused(Node, Bodies, Part = #part{full = Full, links = Links}) when is_map_key(Node, Links) ->
    Unsent = case Full of #{Node := Waiting = {refusing, _, _}} -> Waiting; _ -> {refusing, 0, []} end,
    lists:foldr(fun(Body, Sum) -> wait(Node, Body, Sum) end, Part#part{full = Full#{Node => Unsent}}, Bodies);
refused(_Node, _Bodies, Part) ->
    Part.

wait(Node, {request, View, Number, Edit}, Part) ->
    case {element(1, heal_state:primary(Part)), heal_state:view(Part)} of
        {Node, View} -> heal_entries:unsent(Number, Edit, Part);
        %% The request waits already: it is to be made in a later view.
        _ -> Part
    end;
wait(Node, Body, Part = #part{full = Full}) ->
    #{Node := {refusing, Count, Bodies}} = Full,
    Later = Count + weight(Body),
    case Later =< ?MOST andalso is_due(Node, Body, Part) of
        true -> Part#part{full = Full#{Node := {refusing, Later, [Body | Bodies]}}};
        false -> missed(Node, Body, Part)
    end.

weight({edit, _, Edits, _, _}) -> length(Edits);
weight(_Body) -> 1.

%% Returns whether a body is to be sent later. A message of an exchange that is over isn't: it would hold up the next exchange.
is_due(Node, {edit, {View, _}, _, _, _}, Part = #part{members = Members}) ->
    case Members of
        #{Node := #member{is_lagging = false}} -> heal_state:view(Part) =:= View;
        _ -> false
    end;
is_due(_Node, {ask, Reference, _}, #part{heal = Heal}) -> is_query(Reference, Heal);
is_due(_Node, {turn, Reference, _}, #part{heal = Heal}) -> is_query(Reference, Heal);
is_due(_Node, {hello, Reference, _, _}, #part{heal = Heal}) -> is_query(Reference, Heal);
is_due(_Node, {propose, Number, _, _, _}, #part{heal = Heal}) -> is_open(Number, Heal);
is_due(_Node, {offer, Number, _, _, _}, #part{heal = Heal}) -> is_open(Number, Heal);
is_due(_Node, {list, Number, _}, #part{heal = Heal}) -> is_open(Number, Heal);
is_due(_Node, {finished, _, _}, _Part) -> true;
is_due(_Node, {adopt, Number, _}, #part{adopting = Adopting}) -> is_map_key(Number, Adopting);
is_due(_Node, Body, _Part) -> lists:member(element(1, Body), [busy, ready, cancel, abandon, answer, granted, adopted, released]).

is_query(Reference, {_, #asking{reference = Reference}}) -> true;
is_query(_Reference, _Heal) -> false.

is_open(Number, #open{number = Number}) -> true;
is_open(_Number, _Heal) -> false.

%% A member that has missed an entry gets no other ones before a snapshot.
missed(Node, Body, Part = #part{members = Members, full = Full}) ->
    case {element(1, Body), Members} of
        {Kind, #{Node := Member}} when Kind =:= edit; Kind =:= snapshot; Kind =:= difference ->
            #{Node := {refusing, _, Bodies}} = Full,
            Others = [Other || Other <- Bodies, element(1, Other) =/= edit],
            Part#part{members = Members#{Node := Member#member{is_lagging = true}},
                      full = Full#{Node := {refusing, length(Others), Others}}};
        _ -> Part
    end.

%% A primary for which a caller's edit has waited too long is given up, while there is time left to carry the edit out elsewhere.
-spec overdue(#part{}) -> #part{}.
overdue(Part = #part{full = Full}) when Full =:= #{} ->
    Part;
overdue(Part = #part{waiting = Waiting, requested = Requested, edit_timeout = Timeout, now = Now}) ->
    {Node, _} = heal_state:primary(Part),
    Latest = Now + Timeout - heal_state:patience(Part),
    %% A connection that has room for a moment may refuse a request again.
    Refused = [Call || Call = #call{is_refused = true} <- maps:values(Requested)],
    case is_full(Node, Part) andalso [Call || Call = #call{deadline = Deadline} <- Waiting ++ Refused, is_integer(Deadline), Deadline =< Latest] of
        [_ | _] -> heal_peers:give_up(Node, Part);
        _ -> Part
    end.

%% The connection takes messages again.
-spec drained(node(), #part{}) -> #part{}.
drained(Node, Part = #part{full = Full}) ->
    case Full of
        #{Node := {refusing, _, Bodies}} ->
            Due = [Body || Body <- lists:reverse(Bodies), is_due(Node, Body, Part)],
            Sent = heal_state:add({again, Node, Due}, Part#part{full = Full#{Node := resting}}),
            told(Node, heal_peers:hopeful(Node, Sent));
        _ ->
            Part
    end.

%% The node may have missed an announcement, or that this one follows or wants a snapshot. A member that is to get a snapshot hears of the
%% position after it.
told(Node, Part = #part{peers = Peers, members = Members}) ->
    case {Peers, Members} of
        {#{Node := _}, #{Node := #member{is_lagging = true}}} -> Part;
        {#{Node := _}, _} -> heal_view:join_again(Node, heal_peers:announce_to(Node, Part));
        _ -> heal_peers:hurry(Node, Part)
    end.

%% The pause after which a member may get a snapshot is over.
-spec rested(node(), #part{}) -> #part{}.
rested(Node, Part = #part{full = Full}) ->
    case Full of
        #{Node := resting} -> forget(Node, Part);
        _ -> Part
    end.

%% Returns whether the connection to a node takes no messages.
-spec is_refusing(node(), #part{}) -> boolean().
is_refusing(Node, #part{full = Full}) ->
    case Full of
        #{Node := {refusing, _, _}} -> true;
        _ -> false
    end.

%% Returns whether the connection to a node takes no snapshot.
-spec is_full(node(), #part{}) -> boolean().
is_full(Node, #part{full = Full}) ->
    is_map_key(Node, Full).

%% The connection is gone, or has room.
-spec forget(node(), #part{}) -> #part{}.
forget(Node, Part = #part{full = Full}) ->
    Part#part{full = maps:remove(Node, Full)}.
