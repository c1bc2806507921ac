%% @private The edits of a node's callers: which of them wait, and what their callers receive.
%%
%% The primary carries edits out (heal_orders) and sends their entries to its members (heal_entries), which request theirs from it.
%% The process of another node is registered by that node (heal_adopting). While a node waits for an exchange, a new view or a full
%% connection to the primary, its edits wait too, but for what a primary grants in an exchange (heal_grants).
-module(heal_edits).

-include("heal_part.hrl").

-export([call/3, edit/2, wait/2, resume/1, died/3, answer/3, timed/2, expired/1]).
-export_type([edit/0, answer/0]).

%% `adopt' is a registration by the home of the process, which adds the owner. `any' is a caller's, who doesn't know the owner.
-type edit() ::
    {adopt, heal:name(), Term :: term(), Options :: map(), pid(), node()}
    | {register, heal:name(), #row{}}
    | {unregister, heal:name(), heal:owner() | any}
    | {change, heal:name(), heal:owner() | any, heal_replica:changes()}
    | {upload, Id :: binary(), Code :: binary()}
    | bad.
-type answer() ::
    ok | {ok, Id :: binary() | heal:owner()}
    | {error, pos_integer() | noproc | not_held | bad_edit | {timeout | noconnection, not_made | unknown}
        | {not_stored, Problem :: term()}}.

%% Carries out an edit for a caller of this node.
-spec call(From :: term(), edit(), #part{}) -> #part{}.
call(From, Edit, Part) ->
    edit(#call{from = {caller, From}, edit = Edit}, Part).

%% Carries an edit out, has another node do it, or lets it wait.
-spec edit(#call{}, #part{}) -> #part{}.
edit(Call = #call{edit = {adopt, _, _, _, _, On}}, Part) ->
    heal_adopting:adopt(Call, heal_adopting:place(On, Part), Part);
edit(Call, Part) ->
    case {waits(Part), heal_state:is_primary(Part)} of
        {true, true} -> heal_grants:edit(Call, Part);
        {true, false} -> wait(Call, Part);
        {false, true} -> heal_orders:make(Call, Part);
        {false, false} -> heal_entries:request(Call, Part)
    end.

waits(#part{heal = #open{}}) -> true;
waits(#part{limbo = Limbo}) when Limbo =/= none -> true;
waits(#part{awaited = Awaited, full = Full}) when Awaited =:= #{}, Full =:= #{} -> false;
waits(Part = #part{awaited = Awaited}) ->
    case heal_state:is_primary(Part) of
        true -> Awaited =/= #{};
        false -> heal_congestion:is_refusing(element(1, heal_state:primary(Part)), Part)
    end.

%% Lets an edit wait.
-spec wait(#call{}, #part{}) -> #part{}.
wait(Call, Part = #part{waiting = Waiting}) ->
    Part#part{waiting = [timed(Call, Part) | Waiting]}.

%% Carries out what was granted and what waited, in its order.
-spec resume(#part{}) -> #part{}.
resume(Part = #part{waiting = [], granted = Granted}) when Granted =:= #{} ->
    Part;
resume(Part) ->
    Made = #part{waiting = Waiting} = heal_grants:make(Part),
    case waits(Made) of
        true -> Made;
        false ->
            {Now, Later} = lists:splitwith(resumes(Made), lists:reverse(Waiting)),
            lists:foldl(fun edit/2, Made#part{waiting = lists:reverse(Later)}, Now)
    end.

%% Registrations are made before the view is settled. Other edits may be of names that are restored by then, and those that follow
%% keep their order.
resumes(Part) ->
    case heal_view:is_settling(Part) of
        true -> fun is_registration/1;
        false -> fun(_Call) -> true end
    end.

is_registration(#call{edit = {register, _, _}}) -> true;
is_registration(#call{edit = {adopt, _, _, _, _, _}}) -> true;
is_registration(_Call) -> false.

%% A process that this node answers for has ended: its name is withdrawn in an open exchange, and unregistered.
-spec died(heal:name(), heal:owner(), #part{}) -> #part{}.
died(Name, Owner, Part) ->
    case heal_home:is_own(Name, Owner, Part) of
        true -> released_by_death(Name, Owner, heal_home:disown(Name, Part));
        false -> Part
    end.

released_by_death(Name, Owner, Part) ->
    case heal_state:owner(Name, Part) of
        Owner ->
            Hidden = heal_state:add({hide, Name}, Part),
            edit(#call{edit = {unregister, Name, Owner}}, heal_meeting:withdraw(Name, Hidden));
        _ ->
            Part
    end.

%% Answers whoever waits for an edit.
-spec answer(#call{}, answer(), #part{}) -> #part{}.
answer(#call{from = From}, _Answer, Part) when From =:= none; element(1, From) =:= home ->
    Part;
answer(Call = #call{from = {caller, From}, edit = {upload, Id, _}}, Answer = {ok, Id}, Part) ->
    case heal_storing:is_awaited(Part) of
        true -> heal_storing:await(Call, Id, Part);
        false -> heal_state:add({reply, From, Answer}, Part)
    end;
answer(#call{from = {caller, From}}, Answer, Part) ->
    heal_state:add({reply, From, Answer}, Part);
answer(#call{from = {member, Node, Number}}, Answer, Part) ->
    heal_state:send(Node, {answer, heal_state:view(Part), Number, Answer}, Part);
answer(#call{from = {adopting, Node, Number}, edit = {register, Name, Row}}, ok, Part) ->
    heal_state:send(Node, {adopted, Number, {ok, Name, heal_row:owner(Row), heal_state:at(Part)}}, Part);
answer(#call{from = {adopting, Node, Number}}, Answer, Part) ->
    heal_state:send(Node, {adopted, Number, Answer}, Part).

%% Gives a caller's edit its deadline.
-spec timed(#call{}, #part{}) -> #call{}.
timed(Call = #call{from = {Kind, _}, deadline = none}, #part{now = Now, edit_timeout = Timeout}) when Kind =:= caller ->
    Call#call{deadline = Now + Timeout};
timed(Call = #call{from = {adopting, _, _}, deadline = none}, #part{now = Now, edit_timeout = Timeout}) ->
    Call#call{deadline = Now + Timeout};
timed(Call, _Part) ->
    Call.

%% Answers the edits whose time is over before the next tick. The primary may yet carry out those that were sent.
-spec expired(#part{}) -> #part{}.
expired(Part = #part{waiting = Waiting, requested = Requested, adopting = Adopting}) ->
    Next = Part#part.now + heal_state:tick(Part),
    IsLate = fun(#call{deadline = Deadline}) -> is_integer(Deadline) andalso Deadline =< Next end,
    {Late, Rest} = lists:partition(IsLate, Waiting),
    {Sent, _} = split(IsLate, Requested),
    Forgotten = maps:map(fun(_, Call) -> Call#call{from = none, deadline = none} end, Sent),
    {Adopted, Adopts} = split(fun({_, Call}) -> IsLate(Call) end, Adopting),
    {Unreleased, Releases} = split(IsLate, Part#part.unreleased),
    {Arriving, Arrivals} = split(IsLate, Part#part.arriving),
    {Leaving, Leaves} = split(IsLate, Part#part.leaving),
    {Storing, Stores} = lists:partition(fun({_, Call}) -> IsLate(Call) end, Part#part.storing),
    Kept = Part#part{waiting = Rest, requested = maps:merge(Requested, Forgotten), adopting = Adopts, unreleased = Releases,
                     arriving = Arrivals, leaving = Leaves, storing = Stores},
    Calls = Late ++ lists:append([maps:values(Some) || Some <- [Sent, Unreleased, Arriving, Leaving]])
        ++ [Call || {_, Call} <- Storing ++ maps:values(Adopted)],
    lists:foldl(fun(Call, Sum) -> answer(Call, {error, {timeout, whether(Call)}}, Sum) end, Kept, Calls).

split(_IsLate, Calls) when Calls =:= #{} ->
    {#{}, #{}};
split(IsLate, Calls) ->
    {maps:filter(fun(_, Call) -> IsLate(Call) end, Calls), maps:filter(fun(_, Call) -> not IsLate(Call) end, Calls)}.

whether(#call{is_sent = true}) -> unknown;
whether(_Call) -> not_made.
