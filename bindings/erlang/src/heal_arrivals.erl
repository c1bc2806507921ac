%% @private Answers that wait until this node's table shows the edit, so that callers read their own writes.
-module(heal_arrivals).

-include("heal_part.hrl").

-export([arrived/2, left/2, released/3, leave/3, arriving/3, all_arrived/1]).

%% This node has a name.
-spec arrived(heal:name(), #part{}) -> #part{}.
arrived(_Name, Part = #part{arriving = Arriving}) when Arriving =:= #{} ->
    Part;
arrived(Name, Part = #part{arriving = Arriving}) ->
    case maps:take(heal_state:owner(Name, Part), Arriving) of
        {Call, Rest} -> heal_edits:answer(Call, ok, Part#part{arriving = Rest});
        error -> Part
    end.

%% A name that this node had unregistered is gone from its table too.
-spec left(heal:owner(), #part{}) -> #part{}.
left(Owner, Part = #part{leaving = Leaving}) ->
    case maps:take(Owner, Leaving) of
        {Call, Rest} -> heal_edits:answer(Call, {ok, Owner}, Part#part{leaving = Rest});
        error -> Part
    end.

%% The home of a name that this node had unregistered has confirmed it.
-spec released(pos_integer(), heal:owner(), #part{}) -> #part{}.
released(Number, Owner, Part = #part{unreleased = Unreleased, requested = Requested}) ->
    case {Unreleased, Requested} of
        {#{Number := Call}, _} -> leave(Call, Owner, Part#part{unreleased = maps:remove(Number, Unreleased)});
        {_, #{Number := Call}} -> Part#part{requested = Requested#{Number := Call#call{released = Owner}}};
        _ -> Part
    end.

%% A view that this node follows since may have the name for a moment, until its home has dropped it there too.
-spec leave(#call{}, heal:owner(), #part{}) -> #part{}.
leave(Call = #call{edit = {change, _, _, _}}, Owner, Part) ->
    heal_edits:answer(Call, {ok, Owner}, Part);
leave(Call = #call{edit = {unregister, Name, _}}, Owner, Part = #part{leaving = Leaving}) ->
    case heal_state:owner(Name, Part) of
        Owner -> Part#part{leaving = Leaving#{Owner => Call}};
        _ -> heal_edits:answer(Call, {ok, Owner}, Part)
    end.

%% Answers the calls that waited for this table.
-spec all_arrived(#part{}) -> #part{}.
all_arrived(Part = #part{arriving = Arriving, leaving = Leaving}) when Arriving =:= #{}, Leaving =:= #{} ->
    Part;
all_arrived(Part = #part{leaving = Leaving}) ->
    #half{names = Names} = heal_state:half(Part),
    Owners = maps:from_keys([heal_row:owner(Row) || Row <- maps:values(Names)], has),
    Left = [Owner || Owner <- maps:keys(Leaving), not is_map_key(Owner, Owners)],
    lists:foldl(fun left/2, lists:foldl(fun arrived/2, Part, maps:keys(Names)), Left).

%% A registration is made, and this node will have it.
-spec arriving(heal:name(), #call{}, #part{}) -> #part{}.
arriving(Name, Call = #call{edit = {register, _, Row}}, Part = #part{arriving = Arriving}) ->
    arrived(Name, Part#part{arriving = Arriving#{heal_row:owner(Row) => Call}}).
