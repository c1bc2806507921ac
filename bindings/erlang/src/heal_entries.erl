%% @private A member of a part requests edits from its primary and applies the entries.
-module(heal_entries).

-include("heal_part.hrl").

-export([request/2, unsent/3, entries/6, answered/5, finish/3, taken/4, restart/1, skipped/1]).

%% Has the primary carry an edit out.
-spec request(#call{}, #part{}) -> #part{}.
request(Call = #call{edit = Edit}, Part = #part{requests = Last, requested = Requested}) ->
    {{Primary, _}, _} = View = heal_state:view(Part),
    Next = Last + 1,
    Kept = case Call of
        #call{from = none} -> Requested;
        _ -> Requested#{Next => (heal_edits:timed(Call, Part))#call{is_sent = true, released = none}}
    end,
    heal_state:send(Primary, {request, View, Next, Edit}, Part#part{requests = Next, requested = Kept}).

%% The connection to the primary has refused a request: its edit waits. A request of an earlier view may have been sent.
-spec unsent(Number :: pos_integer(), heal_edits:edit(), #part{}) -> #part{}.
unsent(Number, Edit, Part = #part{requested = Requested, waiting = Waiting}) ->
    {Call, Rest} = case maps:take(Number, Requested) of
        error -> {#call{edit = Edit}, Requested};
        Known -> Known
    end,
    Part#part{requested = Rest, waiting = [Call#call{is_sent = Call#call.is_repeated, is_refused = true} | Waiting]}.

%% Applies entries of this node's view in their order. If one is missing, the primary sends a snapshot.
-spec entries(node(), heal_replica:position(), [heal_replica:edit()], By, heal_edits:answer(), #part{}) -> #part{}
    when By :: none | {node(), pos_integer()}.
entries(Node, {View, Operation}, [Edit | Rest], By, Answer, Part = #part{replica = Replica, node = Self}) ->
    case {heal_state:at(Part), heal_replica:apply({{View, Operation}, Edit}, Replica)} of
        {{{{Node, _}, _}, _}, {ok, How, Applied}} ->
            Next = entry(How, Edit, By, noted(How, Edit, Part#part{replica = Applied}, Part), Part),
            Answered = case By of {Self, Number} -> entered(Number, {How, Edit}, Answer, Part, Next); _ -> Next end,
            entries(Node, {View, Operation + 1}, Rest, By, Answer, Answered);
        {{View, Own}, {error, 97}} when Part#part.gap =/= Own ->
            heal_view:want(View, Part#part{gap = Own});
        _ ->
            Part
    end;
entries(_Node, _At, [], _By, _Answer, Part) ->
    Part.

noted(already, _Edit, Applied, _Before) -> Applied;
noted(now, Edit, Applied, Before) -> heal_difference:note(Edit, Applied, Before).

entry(already, _Edit, _By, _Applied, Part) ->
    Part;
entry(now, {register, Name, _}, By, Applied, Part = #part{lost = Lost}) ->
    #{Name := Row} = (heal_state:half(Applied))#half.names,
    Done = heal_orders:applied({register, Name, Row}, By, Part, claimed_by(By, Row, Name, Applied)),
    case heal_home:is_conflict(Name, Row, Done) andalso not is_map_key(Name, Lost) of
        true -> heal_view:lead_alone(Done);
        false -> Done
    end;
entry(now, Edit, By, Applied, Part) ->
    heal_orders:applied(Edit, By, Part, Applied).

%% The entry makes a registration that this node has requested. If its view has changed since, the request waits again.
claimed_by({Self, Number}, Row, Name, Part = #part{node = Self, requested = Requested}) ->
    case is_registering(heal_row:owner(Row), maps:get(Number, Requested, none)) of
        true -> heal_home:claim(Name, Row, Part);
        false -> claimed_again(Name, Row, Part)
    end;
claimed_by(_By, _Row, _Name, Part) ->
    Part.

claimed_again(Name, Row, Part = #part{requested = Requested, waiting = Waiting}) ->
    Owner = heal_row:owner(Row),
    Is = fun(Call) -> is_registering(Owner, Call) end,
    case lists:any(Is, maps:values(Requested)) of
        true -> heal_home:claim(Name, Row, Part);
        false ->
            case lists:partition(Is, Waiting) of
                {[], _} -> Part;
                {[Call | _], Rest} -> claim(Call, Name, Row, Part#part{waiting = Rest})
            end
    end.

is_registering(Owner, #call{edit = {register, _, Row}}) -> heal_row:owner(Row) =:= Owner;
is_registering(_Owner, _Call) -> false.

%% A request of this node is carried out. A home other than the primary has yet to confirm that it answers no more for a name.
entered(Number, Made, Answer, Before, Part = #part{requested = Requested, unreleased = Unreleased}) ->
    case {maps:take(Number, Requested), Made} of
        {error, _} ->
            Part;
        {{Call, Rest}, {now, Edit}} when element(1, Edit) =:= unregister; element(1, Edit) =:= change ->
            Name = element(2, Edit),
            #{Name := #row{home = Home}} = (heal_state:half(Before))#half.names,
            case Call#call.from =:= none orelse lists:member(Home, [heal_state:life(Part), heal_state:primary(Part)]) of
                %% The home confirms it already, or nobody waits for that any more.
                true -> heal_edits:answer(Call, Answer, Part#part{requested = Rest});
                false when Call#call.released =/= none -> heal_arrivals:leave(Call, Call#call.released, Part#part{requested = Rest});
                false -> Part#part{requested = Rest, unreleased = Unreleased#{Number => Call}}
            end;
        {{Call, Rest}, {_, {register, Name, Row}}} ->
            heal_edits:answer(Call, registered(Name, heal_row:owner(Row), Answer, Part), Part#part{requested = Rest});
        {{Call, Rest}, {now, _Upload}} ->
            heal_edits:answer(Call, Answer, Part#part{requested = Rest});
        {{Call, Rest}, {already, _}} ->
            heal_edits:answer(Call, {error, {timeout, unknown}}, Part#part{requested = Rest})
    end.

%% A registration may have been unregistered already in entries that this node has skipped.
registered(Name, Owner, Answer, Part) ->
    case {heal_home:is_own(Name, Owner, Part), heal_home:is_taken(Name, Owner, Part)} of
        {true, _} -> Answer;
        {false, true} -> {error, 30};
        {false, false} -> {error, {timeout, unknown}}
    end.

%% The primary has answered a request without an entry.
-spec answered(node(), heal_replica:view(), pos_integer(), heal_edits:answer(), #part{}) -> #part{}.
answered(Node, View, Number, Answer, Part = #part{requested = Requested}) ->
    case {heal_state:view(Part), maps:take(Number, Requested)} of
        {View = {{Node, _}, _}, {Call, Rest}} -> finish(Call, Answer, Part#part{requested = Rest});
        _ -> Part
    end.

%% The primary of this node begins another view. Requests after the last one that it took before aren't made.
-spec taken(node(), heal_replica:view(), Last :: non_neg_integer(), #part{}) -> #part{}.
taken(Node, View = {Life, _}, Last, Part) ->
    case heal_state:primary(Part) of
        Life = {Node, _} -> Part#part{taken = {View, Last}};
        _ -> Part
    end.

%% The view has changed. Registrations that it has are answered; other requests wait again, but for those that nobody waits for.
-spec restart(#part{}) -> #part{}.
restart(Part = #part{requested = Requested, waiting = Waiting, taken = Taken, members = Members}) ->
    Kept = [Call || Call = #call{from = From} <- Waiting, From =:= none orelse lists:member(element(1, From), [caller, adopting])],
    View = heal_state:view(Part),
    IsMade = fun(Number) -> case Taken of {View, Last} -> Number =< Last; _ -> true end end,
    Calls = [again(Call, IsMade(Number)) || {Number, Call} <- lists:sort(maps:to_list(Requested))],
    Next = Part#part{requested = #{}, waiting = [], gap = none, taken = none, members = lists:foldl(fun untaken/2, Members, Waiting)},
    Restarted = lists:foldl(fun restart/2, Next, Calls),
    heal_arrivals:all_arrived(Restarted#part{waiting = Kept ++ Restarted#part.waiting}).

%% A member's request that waited isn't made, nor are those after it.
untaken(#call{from = {member, Node, Number}}, Members) ->
    case Members of
        #{Node := Member = #member{taken = Last}} when Last =/= none -> Members#{Node := Member#member{taken = min(Last, Number - 1)}};
        _ -> Members
    end;
untaken(_Call, Members) ->
    Members.

%% A request that may have been made in an earlier view, or isn't.
again(Call, true) -> Call#call{is_repeated = true};
again(Call = #call{is_repeated = IsRepeated}, false) -> Call#call{is_sent = IsRepeated}.

%% This node has skipped entries of its view. Requests that aren't made are still with the primary.
-spec skipped(#part{}) -> #part{}.
skipped(Part = #part{requested = Requested}) ->
    Skip = fun(Number, Call = #call{edit = Edit}, Sum) ->
        case is_made(Edit, Sum) of
            {true, Name, Row} -> claim(Call, Name, Row, Sum#part{requested = maps:remove(Number, Sum#part.requested)});
            false -> Sum
        end
    end,
    heal_arrivals:all_arrived(maps:fold(Skip, Part#part{gap = none}, Requested)).

restart(Call = #call{released = Owner}, Part) when Owner =/= none ->
    %% The home has made the edit. Made again, it could be of a later registration.
    heal_arrivals:leave(Call, Owner, Part);
restart(Call = #call{from = From, edit = Edit}, Part = #part{waiting = Waiting}) ->
    case {is_made(Edit, Part), From} of
        {{true, Name, Row}, _} -> claim(Call, Name, Row, Part);
        {false, none} -> Part;
        {false, _} -> Part#part{waiting = [Call | Waiting]}
    end.

%% A registration of this node is made: it is claimed, unless this node has come to answer for another one of the name.
claim(Call, Name, Row, Part) ->
    case heal_home:is_taken(Name, heal_row:owner(Row), Part) of
        false -> heal_edits:answer(Call, ok, heal_home:forget_kept(Name, Row, Part, shown(Name, Row, heal_home:claim(Name, Row, Part))));
        true -> heal_edits:answer(Call, {error, 30}, Part)
    end.

is_made({register, Name, Row}, Part) ->
    case heal_row:owner(Row) =:= heal_state:owner(Name, Part) of
        true -> {true, Name, map_get(Name, (heal_state:half(Part))#half.names)};
        false -> false
    end;
is_made(_Edit, _Part) ->
    false.

shown(Name, Row, Part) ->
    heal_state:add({rows, [{Name, Row}], []}, Part).

%% Answers an edit that made no entry. The part may have a registration of this node that the node itself doesn't have yet.
-spec finish(#call{}, heal_edits:answer(), #part{}) -> #part{}.
finish(Call = #call{edit = {register, Name, Row = #row{home = Home}}}, ok, Part) ->
    case {heal_state:life(Part), is_made(Call#call.edit, Part)} of
        {Home, {true, _, _}} -> claim(Call, Name, Row, Part);
        {Home, false} -> heal_arrivals:arriving(Name, Call, heal_home:show(Name, heal_home:claim(Name, Row, Part)));
        _ -> heal_edits:answer(Call, ok, Part)
    end;
finish(Call = #call{edit = {change, _, _, _}, is_repeated = true}, {error, _}, Part) ->
    heal_edits:answer(Call, {error, {timeout, unknown}}, Part);
finish(Call = #call{edit = {unregister, Name, any}}, Answer = {error, 31}, Part) ->
    heal_edits:answer(Call, Answer, disowned(Call, Name, Part));
finish(Call, Answer, Part) ->
    heal_edits:answer(Call, Answer, Part).

%% A caller of this node unregisters a name that its home has and the part lacks so far.
disowned(#call{from = {caller, _}}, Name, Part = #part{own = Own}) when is_map_key(Name, Own) ->
    heal_home:disown(Name, Part);
disowned(_Call, _Name, Part) ->
    Part.
