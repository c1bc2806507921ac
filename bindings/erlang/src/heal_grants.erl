%% @private Registrations in an open exchange. The primary makes no edit then. But a name that neither side has clashes with nothing in the
%% exchange, so the primary grants it at once, and makes the registration when the exchange is over.
%%
%% The home of such a registration answers for it, as it does where its part lacks one. If both sides grant a name, one of the homes leaves its
%% part, and another exchange decides.
-module(heal_grants).

-include("heal_part.hrl").

-export([edit/2, heard/1, take/4, make/1]).

%% Grants what a primary's caller or a member registers, or lets an edit wait.
-spec edit(#call{}, #part{}) -> #part{}.
edit(Call = #call{from = {caller, _}, edit = {register, Name, Row}}, Part) ->
    case grant(Name, Row, Call#call{from = none}, Part) of
        {true, Granted} -> claim(Name, Row, Call, Granted);
        {false, Next} -> heal_edits:wait(Call, Next)
    end;
edit(Call = #call{from = {member, Node, Number}, edit = {register, Name, Row}}, Part) ->
    case grant(Name, Row, Call, Part) of
        {true, Granted} -> heal_state:send(Node, {granted, heal_state:view(Part), Number}, Granted);
        {false, Next} -> heal_edits:wait(Call, Next)
    end;
edit(Call = #call{from = {caller, _}, edit = {unregister, Name, Whose}}, Part = #part{granted = Granted, own = Own}) ->
    case {Own, heal_state:owner(Name, Part)} of
        {#{Name := Row}, none} when is_map_key(Name, Granted) -> unregister(Call, Whose, heal_row:owner(Row), Part);
        _ -> heal_edits:wait(Call, Part)
    end;
edit(Call, Part) ->
    heal_edits:wait(Call, Part).

claim(Name, Row, Call, Part) ->
    heal_edits:answer(Call, ok, heal_home:show(Name, heal_home:claim(Name, Row, Part))).

unregister(Call = #call{edit = {_, Name, _}}, Whose, Owner, Part) when Whose =:= any; Whose =:= Owner ->
    heal_edits:answer(Call, {ok, Owner}, heal_home:disown(Name, Part));
unregister(Call, _Whose, _Owner, Part) ->
    heal_edits:answer(Call, {error, not_held}, Part).

%% Grants a name that neither side of an open exchange has, for which the table has room, and whose program the merge has for sure. It grants
%% none that another node or an edit which waits may have.
grant(Name, Row, Call, Part = #part{heal = Open = #open{node = Node, others = Others}, limbo = none, awaited = Awaited}) when Others =/= none ->
    Theirs = case Open of #open{theirs = none} -> heal_processes:pids(Others); #open{theirs = Known} -> Known end,
    Next = #part{own = Own, replica = Replica, granted = Granted, waiting = Waiting} = Part#part{heal = Open#open{theirs = Theirs}},
    #half{names = Names} = heal_state:half(Part),
    HasRoom = map_size(Names) + map_size(Theirs) + map_size(Granted) < heal_replica:limit(Replica),
    IsTaken = lists:any(fun(Known) -> is_map_key(Name, Known) end, [Own, Names, Theirs, Granted]) orelse lists:any(names(Name), Waiting),
    case HasRoom andalso not IsTaken andalso maps:remove(Node, Awaited) =:= #{} andalso has_program(heal_row:resolver(Row), Next) of
        true -> {true, Next#part{granted = Granted#{Name => Call}}};
        false -> {false, Next}
    end;
grant(_Name, _Row, _Call, Part) ->
    {false, Part}.

%% If both sides have too many programs together, the merge lacks some.
has_program({program, Id}, Part = #part{heal = #open{programs = Theirs}}) ->
    #half{programs = Ours} = heal_state:half(Part),
    is_map_key(Id, Ours) andalso map_size(maps:merge(Theirs, Ours)) =< ?MAX_PROGRAMS;
has_program(_Builtin, _Part) ->
    true.

names(Name) ->
    fun(#call{edit = Edit}) -> is_tuple(Edit) andalso element(2, Edit) =:= Name end.

%% The processes of the other side are known: what waited for that is granted.
-spec heard(#part{}) -> #part{}.
heard(Part = #part{waiting = Waiting}) ->
    lists:foldl(fun edit/2, Part#part{waiting = []}, lists:reverse(Waiting)).

%% The primary has granted a request of this node. If the table still has the name for another process, whose unregistration is on its way, the
%% caller waits for the entry, which follows in any case.
-spec take(node(), heal_replica:view(), pos_integer(), #part{}) -> #part{}.
take(Node, View, Number, Part = #part{requested = Requested, own = Own}) ->
    #half{names = Names} = heal_state:half(Part),
    case {heal_state:view(Part), Requested} of
        {View = {{Node, _}, _}, #{Number := Call = #call{from = {caller, _}, edit = {register, Name, Row}}}}
                when not is_map_key(Name, Own), not is_map_key(Name, Names) ->
            claim(Name, Row, Call, Part#part{requested = Requested#{Number := Call#call{from = none, deadline = none}}});
        _ ->
            Part
    end.

%% Makes what was granted once the exchange is over, as far as the part lacks it: the next one offers it. A node that follows another one by
%% now has joined it with its own registrations.
-spec make(#part{}) -> #part{}.
make(Part = #part{heal = Heal, granted = Granted}) when is_record(Heal, open); Granted =:= #{} ->
    Part;
make(Part = #part{granted = Granted}) ->
    case heal_state:is_primary(Part) of
        true -> lists:foldl(fun make/2, Part#part{granted = #{}}, maps:values(Granted));
        false -> Part#part{granted = #{}}
    end.

make(Call = #call{edit = Edit = {register, Name, #row{home = Home}}}, Part = #part{members = Members}) ->
    Made = case heal_state:owner(Name, Part) of none -> heal_orders:make(Call, Part); _ -> Part end,
    %% A member has yet to follow the view that began with the merge, and has the name already.
    case heal_state:owner(Name, Made) =:= none andalso [here || #member{life = Life} <- maps:values(Members), Life =:= Home] of
        [here] -> heal_orders:make_each([Edit], element(2, heal_state:at(Made)), Made);
        _ -> Made
    end.
