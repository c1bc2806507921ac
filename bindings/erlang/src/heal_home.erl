%% @private The registrations that a node answers for, and what follows when its part's table differs from them.
%%
%% A home keeps each registration that was acknowledged until its process ends, it is unregistered, or an exchange has given the
%% name to another process and the notice is delivered. So no part loses one by following a replica that lacks it.
-module(heal_home).

-include("heal_part.hrl").

-export([claim/3, change/3, forget_kept/4, show/2, show_all/1, is_taken/3, disown/2, is_own/3, waiting/1, conflicts/2, is_conflict/3, keep_programs/1]).
-export([plan/4, losers/1, changes/2, current/3, conflicts/1, swap/2, differences/1, differences/2, settle/1, restrict/2]).
-export_type([changes/0, plan/0]).


%% The rows of a half that differ from those of the half before, and the names that it lacks.
-type changes() :: {Put :: [{heal:name(), #row{}}], Drop :: [heal:name()]}.

%% What changes on a node whose part takes another half. It follows from the half and from the first three fields.
-record(plan, {
    losers :: heal_losers:losers(),
    own :: #{heal:name() => #row{}},
    before :: #{heal:name() => #row{}},
    %% Names of this node that the half gives to another process, though no exchange decided so.
    conflicts :: [heal:name()],
    changes :: changes(),
    %% The registrations that an exchange takes names from.
    lost :: #{heal:name() => heal_losers:loss()},
    %% Names whose process another node answers for.
    moved :: [heal:name()],
    %% Registrations that have lost their names.
    losing :: [{heal:name(), #row{}}],
    %% Rows of this node that it doesn't answer for.
    strange :: [{heal:name(), #row{}}],
    %% What the half lacks of this node's registrations.
    lacking :: [heal_edits:edit()]
}).
-opaque plan() :: #plan{}.

%% How a table differs from the registrations of this node. `moved' has names whose process another node answers for, `losing' the
%% registrations that have lost their names, `restored' and `changed' the edits that make the table as they are.
-record(found, {
    conflicts = [] :: [heal:name()],
    moved = [] :: [heal:name()],
    losing = [] :: [{heal:name(), #row{}}],
    restored = [] :: [heal_edits:edit()],
    changed = [] :: [heal_edits:edit()]
}).

%% Answers for a registration from now on, unless this node answers for another one of the name.
-spec claim(heal:name(), #row{}, #part{}) -> #part{}.
claim(Name, Row, Part = #part{own = Own}) when not is_map_key(Name, Own) ->
    heal_state:add({own, Name, Row}, Part#part{own = Own#{Name => Row}});
claim(_Name, _Row, Part) ->
    Part.

%% The half lacks a name, or has yet to drop another registration of it. The processes of this node find its own registration in a half that
%% lacks the name, unless an exchange has decided against it.
-spec show(heal:name(), #part{}) -> #part{}.
show(Name, Part = #part{own = Own, lost = Lost}) ->
    #half{names = Names} = heal_state:half(Part),
    case Own of
        #{Name := Row} when is_map_key(Name, Names) -> kept([{Name, Row}], Part);
        #{Name := Row} when not is_map_key(Name, Lost) -> restoring([{Name, Row}], Part);
        #{Name := Row} -> heal_state:add({rows, [], [Name]}, kept([{Name, Row}], Part));
        _ -> heal_state:add({rows, [], [Name]}, Part)
    end.

%% Shows all registrations of this node that the half lacks.
-spec show_all(#part{}) -> #part{}.
show_all(Part = #part{own = Own, lost = Lost}) ->
    #half{names = Names} = heal_state:half(Part),
    restoring(lacked(lacking(found(Own, Names, Lost)), Names), Part).

restoring([], Part) -> Part;
restoring(Rows, Part) -> heal_state:add({restoring, Rows}, Part).

%% Keeps registrations, so that a registry that starts again has them.
kept([], Part) -> Part;
kept(Rows, Part) -> heal_state:add({keep_own, Rows}, Part).

%% Forgets what was kept of registrations that the half has as they are.
forgotten([], Part) -> Part;
forgotten(Names, Part) -> heal_state:add({forget_own, Names}, Part).

%% Forgets what was kept of a registration, now that the half has its row: if this node answered for it while the half lacked it, in `Before'.
-spec forget_kept(heal:name(), #row{}, Before :: #part{}, #part{}) -> #part{}.
forget_kept(Name, Row, #part{own = Own}, Part) ->
    case Own of
        #{Name := Row} -> forgotten([Name], Part);
        _ -> Part
    end.

%% A registration that this node answers for is changed.
-spec change(heal:name(), #row{}, #part{}) -> #part{}.
change(Name, Row, Part = #part{own = Own}) ->
    kept([{Name, Row}], Part#part{own = Own#{Name := Row}}).

%% Returns whether this node answers for another registration of the name.
-spec is_taken(heal:name(), heal:owner(), #part{}) -> boolean().
is_taken(Name, Owner, Part = #part{own = Own}) ->
    is_map_key(Name, Own) andalso not is_own(Name, Owner, Part).

%% Answers for it no more.
-spec disown(heal:name(), #part{}) -> #part{}.
disown(Name, Part = #part{own = Own, lost = Lost, granted = Granted}) ->
    {Row, Rest} = maps:take(Name, Own),
    Left = Part#part{own = Rest, lost = maps:remove(Name, Lost), granted = maps:remove(Name, Granted)},
    heal_state:add({disown, Name, Row}, Left).

%% Returns whether this node answers for the registration of this owner.
-spec is_own(heal:name(), heal:owner(), #part{}) -> boolean().
is_own(Name, Owner, #part{own = Own}) ->
    case Own of
        #{Name := Row} -> heal_row:is_of(Owner, Row);
        _ -> false
    end.

owner(Row) -> heal_row:owner(Row).

%% Returns the losers whose notice still waits.
-spec waiting(#part{}) -> [heal_losers:loser()].
waiting(#part{own = Own, lost = Lost}) ->
    [{Name, owner(map_get(Name, Own)), Loss} || {Name, Loss} <- maps:to_list(Lost)].

%% Returns the names of this node that a half has given to another process.
-spec conflicts(#half{}, #part{}) -> [heal:name()].
conflicts(#half{names = Names}, #part{own = Own}) ->
    (found(Own, Names, #{}))#found.conflicts.

%% Returns whether a row gives a name of this node to another process.
-spec is_conflict(heal:name(), #row{}, #part{}) -> boolean().
is_conflict(Name, Row, #part{own = Own}) ->
    case Own of
        #{Name := Mine} -> (found(Name, Mine, #{Name => Row}, #{}, #found{}))#found.conflicts =/= [];
        _ -> false
    end.

%% Computes what changes on this node when its part takes this half, from an exchange with these losers or without one. The changes are
%% those of its rows, unless they aren't known.
-spec plan(heal_losers:losers(), #half{}, changes() | unknown, #part{}) -> plan().
plan(Losers, #half{names = New}, Changes, Part = #part{own = Own}) ->
    #half{names = Old} = heal_state:half(Part),
    Lost = heal_losers:lost(Losers, Own),
    Found = found(Own, New, Lost),
    #plan{
        losers = Losers,
        own = Own,
        before = Old,
        conflicts = Found#found.conflicts,
        changes = case Changes of unknown -> changes(Old, New); _ -> Changes end,
        lost = Lost,
        moved = Found#found.moved,
        losing = Found#found.losing,
        strange = strange(maps:to_list(New), Part),
        lacking = lacking(Found)
    }.

%% How a table differs from the registrations of this node, some of which have lost their names.
found(Own, Names, Lost) ->
    lists:foldl(fun({Name, Row}, Sum) -> found(Name, Row, Names, Lost, Sum) end, #found{}, maps:to_list(Own)).

found(Name, Row, Names, Lost, Found) ->
    case Names of
        #{Name := Row} when not is_map_key(Name, Lost) -> Found;
        #{Name := Other} -> other(Name, Row, Other, is_map_key(Name, Lost), Found);
        _ when is_map_key(Name, Lost) -> losing(Name, Row, Found);
        _ -> restored(Name, Row, Found)
    end.

%% The table has another row under the name.
other(Name, Row = #row{pid = Pid, home = Home}, Other = #row{pid = Of, home = OfHome}, IsLost, Found) ->
    case {heal_row:are_of_one(Row, Other), IsLost} of
        {false, _} when Pid =:= Of -> Found#found{moved = [Name | Found#found.moved]};
        {_, true} -> losing(Name, Row, Found);
        %% A registration that this node answers for no more: it is dropped first.
        {false, false} when Home =:= OfHome -> restored(Name, Row, Found);
        {false, false} -> Found#found{conflicts = [Name | Found#found.conflicts]};
        {true, false} ->
            Change = {change, Name, owner(Row), maps:remove(owner, heal_row:registration(Row))},
            Found#found{changed = [Change | Found#found.changed]}
    end.

restored(Name, Row, Found = #found{restored = Restored}) ->
    Found#found{restored = [{register, Name, Row} | Restored]}.

losing(Name, Row, Found = #found{losing = Losing}) ->
    Found#found{losing = [{Name, Row} | Losing]}.

lacking(#found{restored = Restored, changed = Changed}) ->
    Restored ++ Changed.

%% The registrations that such edits restore and a table lacks.
lacked(Edits, Names) ->
    [{Name, Row} || {register, Name, Row} <- Edits, not is_map_key(Name, Names)].

%% Returns how a table differs from an earlier one.
-spec changes(Old :: #{heal:name() => #row{}}, New :: #{heal:name() => #row{}}) -> changes().
changes(Same, Same) ->
    {[], []};
changes(Old, New) ->
    Put = [Entry || Entry = {Name, Row} <- maps:to_list(New), not (is_map_key(Name, Old) andalso map_get(Name, Old) =:= Row)],
    {Put, [Name || Name <- maps:keys(Old), not is_map_key(Name, New)]}.

%% Returns the plan for the same half as it is now. What this node has granted since, or had and has no more, is in neither table.
-spec current(plan(), #half{}, #part{}) -> plan().
current(Plan = #plan{losers = Losers, own = Own, before = Before, lacking = Lacking}, Half, Part = #part{own = Now, granted = Granted}) ->
    {Gone, Left} = lists:partition(fun(Edit) -> is_gone(Edit, Now) end, Lacking),
    Known = maps:without([Name || {register, Name, _} <- Gone], Own),
    New = maps:filter(fun(Name, _) -> not is_map_key(Name, Known) end, maps:with(maps:keys(Granted), Now)),
    case maps:merge(Known, New) =:= Now andalso Before =:= (heal_state:half(Part))#half.names of
        true -> Plan#plan{own = Now, lacking = [{register, Name, Row} || {Name, Row} <- maps:to_list(New)] ++ Left};
        false -> plan(Losers, Half, unknown, Part)
    end.

is_gone({register, Name, _}, Own) -> not is_map_key(Name, Own);
is_gone(_Change, _Own) -> false.

%% Returns the losers of the exchange that a plan follows.
-spec losers(plan()) -> heal_losers:losers().
losers(#plan{losers = Losers}) -> Losers.

%% Returns the names of this node that the half of a plan gives to another process, except those that an exchange decided.
-spec conflicts(plan()) -> [heal:name()].
conflicts(#plan{conflicts = Conflicts}) -> Conflicts.

%% Notes which registrations have lost their names and replaces the table that processes read, now that the replica has the half of the
%% plan. Names of processes that ended are hidden already.
-spec swap(plan(), #part{}) -> #part{}.
swap(Plan = #plan{lost = Lost, moved = Moved, losing = Losing, strange = Strange, lacking = Lacking, changes = {Put, _}}, Part) ->
    #half{names = Names, programs = Known} = heal_state:half(Part),
    All = maps:merge(Part#part.programs, Known),
    Noted = keep_programs(lists:foldl(fun disown/2, Part#part{lost = Lost, programs = All}, Moved)),
    Restoring = lacked(Lacking, Names),
    Kept = kept(Losing ++ earlier(Lacking, Noted), Noted),
    Shown = heal_state:add({rows, Put, gone(Plan, maps:from_list(Restoring), Names)}, restoring(Restoring, Kept)),
    Forgotten = forgotten([Name || {Name, Row} <- Put, is_shown(Name, Row, Noted)], Shown),
    lists:foldl(fun({Name, _}, Sum) -> heal_state:add({hide, Name}, Sum) end, Forgotten, Strange).

%% Returns the registrations of this node whose latest change the half lacks.
earlier(Lacking, #part{own = Own}) ->
    [{Name, map_get(Name, Own)} || {change, Name, _, _} <- Lacking].

%% Returns whether the half shows a registration of this node as it is.
is_shown(Name, Row, #part{own = Own, lost = Lost}) ->
    case Own of
        #{Name := Row} -> not is_map_key(Name, Lost);
        _ -> false
    end.

%% Keeps the programs that this node relies on, and which of them the half has: the part may have no room for all.
-spec keep_programs(#part{}) -> #part{}.
keep_programs(Part = #part{programs = Programs}) ->
    #half{programs = Known} = heal_state:half(Part),
    heal_state:add({keep, known, maps:keys(Known)}, heal_state:add({keep, programs, Programs}, Part)).

%% The names that leave the table: those that the half lacks now and nobody restores, and those that an exchange has taken from registrations
%% which were to be restored.
gone(#plan{before = Before, losing = Losing, changes = {_, Drop}}, Restoring, Names) ->
    [Name || Name <- Drop, not is_map_key(Name, Restoring)]
        ++ [Name || {Name, _} <- Losing, not is_map_key(Name, Before), not is_map_key(Name, Names)].

%% The rows that this node answered for and does no more.
strange(Rows, Part = #part{own = Own}) ->
    Life = heal_state:life(Part),
    [Entry || Entry = {Name, Row = #row{home = Home}} <- Rows, Home =:= Life, not is_one_of(Name, Row, Own)].

is_one_of(Name, Row, Own) ->
    case Own of
        #{Name := Mine} -> heal_row:are_of_one(Mine, Row);
        _ -> false
    end.

%% Returns the edits that the part lacks: registrations and programs of this node, their changes, and names that it answers for no
%% more.
-spec differences(#part{}) -> [heal_edits:edit()].
differences(Part = #part{own = Own, lost = Lost}) ->
    #half{names = Names} = heal_state:half(Part),
    dropped(strange(maps:to_list(Names), Part)) ++ uploads(Part) ++ lacking(found(Own, Names, Lost)).

%% The same right after a plan, of which most of it follows.
-spec differences(plan(), #part{}) -> [heal_edits:edit()].
differences(#plan{own = Own, lost = Lost, strange = Strange, lacking = Lacking}, Part = #part{own = Own, lost = Lost}) ->
    dropped(Strange) ++ uploads(Part) ++ Lacking;
differences(_Plan, Part) ->
    differences(Part).

dropped(Strange) ->
    [{unregister, Name, owner(Row)} || {Name, Row} <- Strange].

uploads(Part = #part{programs = Programs}) ->
    #half{programs = Known} = heal_state:half(Part),
    Room = max(0, ?MAX_PROGRAMS - map_size(Known)),
    lists:sublist([{upload, Id, Code} || {Id, Code} <- maps:to_list(maps:without(maps:keys(Known), Programs))], Room).

%% The view is settled: notifies losers whose name another process has, and returns the edits that restore the others.
-spec settle(#part{}) -> {[heal_edits:edit()], #part{}}.
settle(Part = #part{own = Own, lost = Lost}) ->
    #half{names = Names} = heal_state:half(Part),
    Settled = [{Name, map_get(Name, Own), Loss} || {Name, Loss} <- maps:to_list(Lost)],
    {Free, Taken} = lists:partition(fun({Name, _, Loss}) -> is_free(Name, Loss, Names) end, Settled),
    Left = Part#part{own = without([Name || {Name, _, _} <- Taken], Own), lost = #{}},
    Restored = [{register, Name, Row} || {Name, Row, _} <- Free],
    {Restored, restoring(lacked(Restored, Names), lost(Taken, Left))}.

%% Where much is left out, it takes less to make the map again.
without(Names, Own) when 8 * length(Names) < map_size(Own) ->
    maps:without(Names, Own);
without(Names, Own) ->
    Gone = maps:from_keys(Names, gone),
    maps:filter(fun(Name, _) -> not is_map_key(Name, Gone) end, Own).

%% Nobody has the name, though one of the two was to keep it.
is_free(Name, {{Kind, _}, _}, Names) -> Kind =/= conflict_with andalso not is_map_key(Name, Names).

lost([], Part) -> Part;
lost(Losers, Part) -> heal_state:add({lost, Losers}, Part).

%% Returns a replica's half with the names of these homes alone.
-spec restrict([heal_replica:life()], #part{}) -> #half{}.
restrict(Homes, Part) ->
    Half = #half{names = Names} = heal_state:half(Part),
    IsKept = fun(#row{home = Home}) -> lists:member(Home, Homes) end,
    %% Most often nothing is left out, and then the map stays the same.
    case lists:all(IsKept, maps:values(Names)) of
        true -> Half;
        false -> Half#half{names = maps:filter(fun(_, Row) -> IsKept(Row) end, Names)}
    end.
