%% @private The primary carries edits out in one order, and sends their entries to its members.
-module(heal_orders).

-include("heal_part.hrl").

-export([make/2, make_all/2, make_each/3, requested/5, applied/4]).

%% How many owners a primary remembers that it has unregistered.
-define(REMEMBERED, 1000).
%% The refusal of a registration in a full table.
-define(TABLE_FULL, 32).

%% Decides what an edit does to the half: nothing, with this answer, or an edit of the replica.
plan({register, Name, Row = #row{home = Home}}, Part = #part{own = Own, lost = Lost}) ->
    Owner = heal_row:owner(Row),
    case {heal_state:owner(Name, Part), Own} of
        {Owner, _} -> {answer, ok};
        {_, #{Name := Mine}} ->
            %% Another registration of this node may wait to be restored, or for its notice.
            case heal_row:is_of(Owner, Mine) orelse is_map_key(Name, Lost) andalso Home =/= heal_state:life(Part) of
                true -> {edit, {register, Name, Row}, ok};
                false -> {answer, {error, 30}}
            end;
        _ -> {edit, {register, Name, Row}, ok}
    end;
plan({unregister, Name, Whose}, Part) ->
    plan({unregister, Name}, Whose, heal_state:owner(Name, Part), Part);
plan({change, Name, Whose, Changes}, Part) ->
    plan({change, Name, Changes}, Whose, heal_state:owner(Name, Part), Part);
plan({upload, Id, Code}, _Part) ->
    {edit, {upload, Id, Code}, {ok, Id}};
plan(bad, _Part) ->
    {answer, {error, bad_edit}}.

%% An edit of a name that somebody has.
plan(_Edit, any, none, #part{settle_by = SettleBy}) when SettleBy =/= none -> wait;
plan(_Edit, _Whose, none, _Part) -> {answer, {error, 31}};
plan(Edit, Whose, Owner, _Part) when Whose =:= any; Whose =:= Owner -> {edit, Edit, {ok, Owner}};
plan(_Edit, _Whose, _Other, _Part) -> {answer, {error, not_held}}.

%% Carries an edit out and answers it.
-spec make(#call{}, #part{}) -> #part{}.
make(Call = #call{from = From, edit = Edit}, Part) ->
    case is_current(From, Edit, Part) andalso plan(Edit, Part) of
        %% The member is gone, or the home knows better now.
        false -> Part;
        wait -> heal_edits:wait(Call, Part);
        {answer, Answer} -> heal_entries:finish(Call, Answer, Part);
        {edit, Made, Answer} -> make(Call, Made, Answer, Part)
    end.

make(Call, Edit, Answer, Part = #part{replica = Replica}) ->
    case heal_replica:edit(Edit, Replica) of
        {ok, {At, Made}, Edited} ->
            {By, Numbered} = by(Call, Made, Part),
            Noted = heal_difference:note(Made, Numbered#part{replica = Edited}, Part),
            Claimed = claimed(Call, Made, heal_meeting:touched(Made, Noted)),
            %% The caller doesn't wait for what is sent.
            Answered = made(Call, By, Answer, applied(Made, By, Part, Claimed)),
            heal_view:broadcast({edit, At, [Made], By, Answer}, awaited(By, Made, Part), Answered);
        {error, Number} ->
            refused(Call, Number, Part)
    end.

%% A full table has no room for a registration that this node restores: it waits for room, and nobody else restores it. Other homes look for
%% theirs again.
refused(Call = #call{from = From, edit = {register, Name, Row}}, ?TABLE_FULL, Part) when From =:= none; element(1, From) =:= home ->
    case heal_home:is_own(Name, heal_row:owner(Row), Part) of
        true -> heal_edits:wait(Call#call{from = {home, element(2, heal_state:at(Part))}}, Part);
        false -> Part
    end;
refused(Call, Number, Part) ->
    heal_entries:finish(Call, {error, Number}, Part).

%% The request that an entry answers. A caller of this node whose edit another home has to confirm needs a number too.
by(#call{from = {member, Node, Number}}, _Edit, Part) ->
    {{Node, Number}, Part};
by(#call{from = {caller, _}}, Edit, Part = #part{node = Node, requests = Last}) when element(1, Edit) =:= unregister;
                                                                                    element(1, Edit) =:= change ->
    case is_home(element(2, Edit), Part) of
        true -> {none, Part};
        false -> {{Node, Last + 1}, Part#part{requests = Last + 1}}
    end;
by(_Call, _Edit, Part) ->
    {none, Part}.

is_home(Name, Part) ->
    home(Name, Part) =:= heal_state:life(Part).

home(Name, Part) ->
    #{Name := #row{home = Home}} = (heal_state:half(Part))#half.names,
    Home.

%% The nodes where somebody waits for an entry: that of the request, and the home of the name, which confirms the edit.
awaited(none, _Edit, _Part) ->
    [];
awaited({Node, _}, Edit, Part) when element(1, Edit) =:= unregister; element(1, Edit) =:= change ->
    {Home, _} = home(element(2, Edit), Part),
    [Node, Home];
awaited({Node, _}, _Edit, _Part) ->
    [Node].

made(#call{from = {member, _, _}}, _By, _Answer, Part) ->
    Part;
made(Call, {_, Number}, _Answer, Part = #part{unreleased = Unreleased}) ->
    Part#part{unreleased = Unreleased#{Number => (heal_edits:timed(Call, Part))#call{is_sent = true}}};
made(Call, none, Answer, Part) ->
    heal_edits:answer(Call, Answer, Part).

%% This node answers for what it registers.
claimed(#call{from = {member, _, _}}, _Made, Part) ->
    Part;
claimed(_Call, {register, Name, Row = #row{home = Home}}, Part) ->
    case heal_state:life(Part) of
        Home -> heal_home:claim(Name, Row, Part);
        _ -> Part
    end;
claimed(_Call, _Made, Part) ->
    Part.

%% Makes edits of the primary itself, all of which apply, and sends them in one message.
-spec make_all([heal_replica:edit()], #part{}) -> #part{}.
make_all([], Part) ->
    Part;
make_all(Edits, Part) ->
    {View, Operation} = heal_state:at(Part),
    Step = fun(Edit, Sum = #part{replica = Replica}) ->
        {ok, _, Edited} = heal_replica:edit(Edit, Replica),
        applied(Edit, none, Sum, heal_meeting:touched(Edit, heal_difference:note(Edit, Sum#part{replica = Edited}, Sum)))
    end,
    heal_view:broadcast({edit, {View, Operation + 1}, Edits, none, ok}, [], lists:foldl(Step, Part, Edits)).

%% Makes the edits that a home computed at this operation of the view, as far as they still apply.
-spec make_each([heal_edits:edit()], Operation :: non_neg_integer(), #part{}) -> #part{}.
make_each(Edits, Operation, Part) ->
    lists:foldl(fun(Edit, Sum) -> edit_now(#call{from = {home, Operation}, edit = Edit}, Sum) end, Part, Edits).

edit_now(Call, Part = #part{heal = #open{}}) -> heal_edits:wait(Call, Part);
edit_now(Call, Part) -> make(Call, Part).

%% Takes each request of a member once.
-spec requested(node(), heal_replica:view(), pos_integer(), heal_edits:edit(), #part{}) -> #part{}.
requested(Node, View, Number, Edit, Part = #part{members = Members}) ->
    case {heal_state:is_primary(Part) andalso heal_state:view(Part), Members} of
        {View, #{Node := Member = #member{is_joined = true, taken = Last}}} when Number > Last ->
            Taken = Part#part{members = Members#{Node := Member#member{taken = Number}}},
            heal_edits:edit(#call{from = {member, Node, Number}, edit = Edit}, Taken);
        _ ->
            Part
    end.

%% Does what an entry changes on each node. `Before' is the state that the replica left.
-spec applied(heal_replica:edit(), none | {node(), pos_integer()}, Before :: #part{}, #part{}) -> #part{}.
applied({register, Name, Row = #row{home = Home}}, _By, Before, Part) ->
    Owner = heal_row:owner(Row),
    case Home =/= heal_state:life(Part) orelse heal_home:is_own(Name, Owner, Part) of
        true -> heal_arrivals:arrived(Name, heal_home:forget_kept(Name, Row, Before, heal_state:add({rows, [{Name, Row}], []}, Part)));
        false ->
            %% Nobody waits for it any more. The table keeps what the replica has, but no process finds it.
            heal_edits:edit(#call{edit = {unregister, Name, Owner}}, heal_state:add({ended, Name, Row}, Part))
    end;
applied({unregister, Name}, By, Before, Part) ->
    #{Name := Row = #row{home = Home}} = (heal_state:half(Before))#half.names,
    Owner = heal_row:owner(Row),
    IsHome = Home =:= heal_state:life(Part),
    %% Otherwise the primary thinks that the home has left. The name is missing on other nodes for a while.
    IsMeant = By =/= none orelse heal_state:is_primary(Part),
    Noted = note(Owner, Part),
    Gone = case IsHome andalso not (IsMeant andalso heal_home:is_own(Name, Owner, Part)) of
        true -> heal_home:show(Name, Noted);
        false -> heal_state:add({rows, [], [Name]}, Noted)
    end,
    Left = heal_arrivals:left(Owner, Gone),
    case IsHome andalso IsMeant of
        true -> release(Name, Owner, By, Left);
        false -> Left
    end;
applied({change, Name, _}, By, _Before, Part) ->
    #{Name := Row = #row{home = Home}} = (heal_state:half(Part))#half.names,
    Owner = heal_row:owner(Row),
    Noted = note(Owner, Part),
    Shown = {rows, [{Name, Row}], []},
    case {Home =:= heal_state:life(Part), heal_home:is_own(Name, Owner, Part)} of
        {true, true} -> confirm(Owner, By, heal_home:change(Name, Row, heal_state:add(Shown, Noted)));
        %% Its process has ended.
        {true, false} -> confirm(Owner, By, heal_state:add({ended, Name, Row}, Noted));
        {false, _} -> heal_state:add(Shown, Noted)
    end;
applied({upload, Id, Code}, _By, _Before, Part = #part{programs = Programs}) ->
    heal_home:keep_programs(Part#part{programs = Programs#{Id => Code}}).

%% A primary remembers what it has unregistered or changed lately: a home that doesn't know so yet may want to restore it.
note(Owner, Part = #part{dropped = Dropped, members = Members}) when Members =/= #{} ->
    {_, Operation} = heal_state:at(Part),
    case map_size(Dropped) < ?REMEMBERED of
        true -> Part#part{dropped = Dropped#{Owner => Operation}};
        false -> Part#part{dropped = #{Owner => Operation}, since = Operation - 1}
    end;
note(_Owner, Part) ->
    Part.

%% Returns whether an edit is still to be made. A member that has left has its request made elsewhere; a home's edit undoes no
%% later one.
is_current({member, Node, _}, _Edit, Part = #part{peers = Peers}) ->
    View = heal_state:view(Part),
    case Peers of
        #{Node := #peer{at = {View, _}}} -> true;
        _ -> false
    end;
is_current({home, Operation}, {register, Name, Row = #row{home = Home}}, Part) ->
    Owner = heal_row:owner(Row),
    IsOwn = Home =:= heal_state:life(Part),
    is_later(Operation, Owner, Part) andalso (not IsOwn orelse heal_home:is_own(Name, Owner, Part));
is_current({home, Operation}, {change, _, Owner, _}, Part) ->
    is_later(Operation, Owner, Part);
is_current(_From, _Edit, _Part) ->
    true.

is_later(Operation, Owner, #part{dropped = Dropped, since = Since}) ->
    Operation >= Since andalso maps:get(Owner, Dropped, 0) =< Operation.

%% This node answers no more for a name that another one has unregistered, and confirms it. If it answers for another registration of the
%% name, that is restored.
release(Name, Owner, By, Part) ->
    case heal_home:is_own(Name, Owner, Part) of
        true -> confirm(Owner, By, heal_home:disown(Name, Part));
        false -> confirm(Owner, By, again(Name, Part))
    end.

again(Name, Part = #part{own = Own, lost = Lost}) ->
    case Own of
        #{Name := Row} when not is_map_key(Name, Lost) -> heal_edits:edit(#call{edit = {register, Name, Row}}, Part);
        _ -> Part
    end.

%% The home of a name confirms an edit of it to the node that requested it.
confirm(Owner, {Node, Number}, Part = #part{node = Self}) when Node =/= Self ->
    heal_state:send(Node, {released, Number, Owner}, Part);
confirm(_Owner, _By, Part) ->
    Part.
