%% @private Registrations of processes by their home: the node of the process, or the caller's if that node runs no registry.
-module(heal_adopting).

-include("heal_part.hrl").

-export([place/2, adopt/3, adopt_for/4, adopted/4, lost/2]).

%% The node of a process registers it. If that node runs no registry, or isn't one of the setting, the caller's node does.
-spec place(node(), #part{}) -> here | {at, node()} | unknown | none.
place(On, #part{node = On}) -> here;
place(On, #part{nodes = Nodes, links = Links, awaited = Awaited}) ->
    case {Links, is_list(Nodes) andalso not lists:member(On, Nodes)} of
        {_, true} -> here;
        {#{On := #link{state = peer}}, _} -> {at, On};
        %% It has had time to announce itself: it may be a node of another kind, of which nobody learns that it runs no registry.
        {#{On := #link{state = unknown}}, _} when not is_map_key(On, Awaited) -> here;
        {#{On := #link{state = State}}, _} when State =:= unknown; State =:= deaf -> unknown;
        {#{On := _}, _} -> here;
        _ -> none
    end.

%% Registers a process here, or has its node do so.
-spec adopt(#call{}, here | {at, node()} | unknown | none, #part{}) -> #part{}.
adopt(Call = #call{edit = {adopt, Name, Term, Options, Pid, _}}, here, Part = #part{world = World, number = Number}) ->
    case World:is_alive(Pid) of
        true when is_map_key(Name, Part#part.own) ->
            heal_edits:answer(Call, {error, 30}, Part);
        true ->
            Registration = heal_names:registration(Number, World:serial(), Options),
            Row = heal_row:new(Name, Registration, Pid, Term, heal_state:life(Part)),
            heal_edits:edit(Call#call{edit = {register, Name, Row}}, Part);
        false ->
            heal_edits:answer(Call, {error, noproc}, Part)
    end;
adopt(Call = #call{edit = Edit, from = {caller, _}}, {at, Node}, Part = #part{adopting = Adopting, requests = Last}) ->
    Sent = (heal_edits:timed(Call, Part))#call{is_sent = true},
    Asked = Part#part{requests = Last + 1, adopting = Adopting#{Last + 1 => {Node, Sent}}},
    heal_state:send(Node, {adopt, Last + 1, Edit}, Asked);
adopt(Call = #call{from = {caller, _}}, unknown, Part = #part{awaited = Awaited}) when Awaited =/= #{} ->
    heal_edits:wait(Call, Part);
adopt(Call, _None, Part) ->
    heal_edits:answer(Call, {error, {noconnection, not_made}}, Part).

%% Another node requests that this one registers its process.
-spec adopt_for(node(), pos_integer(), heal_edits:edit(), #part{}) -> #part{}.
adopt_for(Node, Number, Edit, Part = #part{peers = Peers}) ->
    case Peers of
        #{Node := Peer = #peer{adopted = Last}} when Number > Last ->
            Call = #call{from = {adopting, Node, Number}, edit = Edit},
            heal_edits:edit(Call, Part#part{peers = Peers#{Node := Peer#peer{adopted = Number}}});
        #{Node := _} ->
            Part;
        _ ->
            %% This node refuses the other one, or hasn't heard of it so far. The request may be repeated.
            heal_state:send(Node, {adopted, Number, {error, {noconnection, unknown}}}, Part)
    end.

%% The home has answered. A registration is answered once this node has it too.
-spec adopted(node(), pos_integer(), {ok, heal:name(), heal:owner(), heal_replica:position()} | heal_edits:answer(), #part{}) ->
    #part{}.
adopted(Node, Number, Answer, Part = #part{adopting = Adopting, arriving = Arriving}) ->
    case {maps:take(Number, Adopting), Answer} of
        {error, _} -> Part;
        {{{Node, Call}, Rest}, {ok, Name, Owner, {View, Operation}}} ->
            case heal_state:at(Part) of
                {View, Own} when Own >= Operation -> heal_edits:answer(Call, ok, Part#part{adopting = Rest});
                At -> hurried(View, At, heal_arrivals:arrived(Name, Part#part{adopting = Rest, arriving = Arriving#{Owner => Call}}))
            end;
        {{{Node, Call}, Rest}, _} -> heal_edits:answer(Call, Answer, Part#part{adopting = Rest});
        {{{_Other, _}, _}, _} -> Part
    end.

%% The primary of this node's view may keep the entry for a moment.
hurried(View = {{Primary, _}, _}, {View, _}, Part) -> heal_peers:hurry(Primary, Part);
hurried(_View, _At, Part) -> Part.

%% Handles that a node is gone: nobody knows whether it has registered its processes.
-spec lost(node(), #part{}) -> #part{}.
lost(Node, Part = #part{adopting = Adopting}) ->
    Lost = maps:filter(fun(_, {At, _}) -> At =:= Node end, Adopting),
    Calls = [Call || {_, {_, Call}} <- lists:sort(maps:to_list(Lost))],
    Rest = Part#part{adopting = maps:without(maps:keys(Lost), Adopting)},
    lists:foldl(fun(Call, Sum) -> heal_edits:answer(Call, {error, {noconnection, unknown}}, Sum) end, Rest, Calls).
