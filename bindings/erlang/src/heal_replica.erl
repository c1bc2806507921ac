%% @private A node's copy of a part's names, at a position: the calls and refusals of the crate `replica', and the edit `change'.
%%
%% A position is a view and the number of an operation. Two replicas at one position hold one half. A primary carries an edit
%% out and returns its entry; a backup applies the entries of its view in order, or follows a snapshot. Any replica may start a
%% view of its own.
-module(heal_replica).

-include("heal_replica.hrl").

-export([start/1, resume/4, within/2, limit/1, life/1, position/1, half/1, led/1, is_primary/1]).
-export([lead/1, change/3, edit/2, snapshot/1, follow/2, apply/2, compact/2, upgrade/1]).
-export_type([replica/0, life/0, view/0, position/0, half/0, row/0, edit/0, changes/0, entry/0, snapshot/0, refusal/0]).

-define(USUAL_LIMIT, 4096).
-define(MAX_NUMBER, 16#ffffffffffffffff).

-record(replica, {
    life :: life(),
    at :: position(),
    led = 1 :: pos_integer(),
    half = #half{} :: half(),
    limit = ?USUAL_LIMIT :: pos_integer(),
    %% Fields of later versions follow.
    shared = #{} :: heal_row:shared()
}).

-opaque replica() :: #replica{}.
-type life() :: {node(), Incarnation :: non_neg_integer()}.
%% A node never repeats an incarnation.
-type view() :: {Primary :: life(), Number :: pos_integer()}.
-type position() :: {view(), Operation :: non_neg_integer()}.
-type half() :: #half{}.
-type row() :: #row{}.
-type edit() :: {register, heal:name(), row()} | {unregister, heal:name()} | {change, heal:name(), changes()}
    | {upload, Id :: binary(), Code :: binary()}.
%% Some of the options of a registration.
-type changes() :: #{stamp | weight | extra | resolver => term()}.
-type entry() :: {position(), edit()}.
-type snapshot() :: {position(), half()}.
-type refusal() :: 30..32 | 41..43 | 49 | 95..99.

%% Starts a life of a node: an empty half at the start of its first view.
-spec start(life()) -> replica().
start(Life) ->
    #replica{life = Life, at = {{Life, 1}, 0}}.

%% Makes the replica again that a node had, with the number of the latest view that it started.
-spec resume(life(), position(), Led :: pos_integer(), half()) -> replica().
resume(Life, At, Led, Half) ->
    #replica{life = Life, at = At, led = Led, half = Half}.

%% Sets how many names the edits of this replica may bring the table to.
-spec within(Limit :: pos_integer(), replica()) -> replica().
within(Limit, Replica) ->
    Replica#replica{limit = Limit}.

%% Returns that limit.
-spec limit(replica()) -> pos_integer().
limit(#replica{limit = Limit}) -> Limit.

%% Returns the life.
-spec life(replica()) -> life().
life(#replica{life = Life}) -> Life.

%% Returns the position.
-spec position(replica()) -> position().
position(#replica{at = At}) -> At.

%% Returns the half.
-spec half(replica()) -> half().
half(#replica{half = Half}) -> Half.

%% Returns the number of the latest view that the replica started.
-spec led(replica()) -> pos_integer().
led(#replica{led = Led}) -> Led.

%% Returns whether the replica may make entries: whether it is in the latest view that it started.
-spec is_primary(replica()) -> boolean().
is_primary(#replica{life = Life, led = Led, at = {View, _}}) -> View =:= {Life, Led}.

%% Starts a view with the half as it is.
-spec lead(replica()) -> {ok, replica()} | {error, 99}.
lead(#replica{led = ?MAX_NUMBER}) ->
    {error, 99};
lead(Replica = #replica{life = Life, led = Led}) ->
    {ok, Replica#replica{led = Led + 1, at = {{Life, Led + 1}, 0}}}.

%% Starts a view with this half, unless the replica has left that position.
-spec change(position(), half(), replica()) -> {ok, replica()} | {error, 49 | 99}.
change(From, Half, Replica = #replica{at = From}) ->
    lead(Replica#replica{half = Half});
change(_From, _Half, _Moved) ->
    {error, 49}.

%% Carries an edit out as the primary, and returns the entry for the backups, whose row is that of the half.
-spec edit(edit(), replica()) -> {ok, entry(), replica()} | {error, refusal()}.
edit(Edit, Replica = #replica{at = {_, Operation}}) ->
    case is_primary(Replica) of
        false -> {error, 95};
        true when Operation =:= ?MAX_NUMBER -> {error, 99};
        true -> made(Edit, Replica)
    end.

made(Edit, Replica = #replica{limit = Limit}) ->
    {Shared, Next} = shared(Edit, Replica),
    case step(Shared, Limit, Next) of
        {ok, Made = #replica{at = At}} -> {ok, {At, Shared}, Made};
        Refused -> Refused
    end.

shared({register, Name, Row}, Replica = #replica{shared = Known}) ->
    {Shared, Next} = heal_row:share(Row, Known),
    {{register, Name, Shared}, Replica#replica{shared = Next}};
shared(Edit, Replica) ->
    {Edit, Replica}.

step(Edit, Limit, Replica = #replica{at = {View, Operation}, half = Half}) ->
    case edited(Edit, Limit, Half) of
        {ok, Edited} -> {ok, Replica#replica{at = {View, Operation + 1}, half = Edited}};
        Refused -> Refused
    end.

%% Returns a snapshot.
-spec snapshot(replica()) -> snapshot().
snapshot(#replica{at = At, half = Half}) -> {At, Half}.

%% Takes the position and the half of a snapshot, unless it is of the latest view that the replica started.
-spec follow(snapshot(), replica()) -> {ok, replica()} | {error, 98}.
follow({{{Life, Led}, _}, _}, #replica{life = Life, led = Led}) ->
    {error, 98};
follow({At, Half}, Replica) ->
    {ok, Replica#replica{at = At, half = Half}}.

%% Applies an entry: 96 if it is of another view, 97 if an earlier one is missing. A repeated one changes nothing.
-spec apply(entry(), replica()) -> {ok, now | already, replica()} | {error, refusal()}.
apply({{View, Operation}, Edit}, Replica = #replica{at = {Own, Last}}) ->
    if
        View =/= Own -> {error, 96};
        Operation =< Last -> {ok, already, Replica};
        Operation > Last + 1 -> {error, 97};
        true -> applied(Edit, Replica)
    end.

%% A backup takes what the primary made, also beyond its own limit.
applied(Edit, Replica) ->
    {Shared, Next} = shared(Edit, Replica),
    case step(Shared, infinity, Next) of
        {ok, Applied} -> {ok, now, Applied};
        Refused -> Refused
    end.

%% Carries an edit out on a half. The first refusal that applies is returned. No number is above `infinity'.
edited({register, Name, Row}, Limit, Half = #half{names = Names}) ->
    if
        is_map_key(Name, Names) -> {error, 30};
        map_size(Names) >= Limit -> {error, 32};
        true -> with_program(Name, Row, Half)
    end;
edited({unregister, Name}, _Limit, Half = #half{names = Names}) ->
    case Names of
        #{Name := _} -> {ok, Half#half{names = maps:remove(Name, Names)}};
        _ -> {error, 31}
    end;
edited({change, Name, Changes}, _Limit, Half = #half{names = Names, programs = Programs}) ->
    case {Names, Changes} of
        {#{Name := _}, #{resolver := {program, Id}}} when not is_map_key(Id, Programs) -> {error, 41};
        {#{Name := Row}, _} -> {ok, Half#half{names = Names#{Name := heal_row:change(Row, Changes)}}};
        _ -> {error, 31}
    end;
edited({upload, Id, Code}, _Limit, Half = #half{programs = Programs}) ->
    case Programs of
        #{Id := Code} -> {ok, Half};
        #{Id := _} -> {error, 42};
        _ when map_size(Programs) >= ?MAX_PROGRAMS -> {error, 43};
        _ -> {ok, Half#half{programs = Programs#{Id => Code}}}
    end.

with_program(Name, Row, Half = #half{names = Names, programs = Programs}) ->
    case heal_row:resolver(Row) of
        {program, Id} when not is_map_key(Id, Programs) -> {error, 41};
        _ -> {ok, Half#half{names = Names#{Name => Row}}}
    end.

%% Returns the same snapshot with less memory: one that another node sent has copies of what rows share, and of rows that the replica
%% has already.
-spec compact(snapshot(), replica()) -> snapshot().
compact({At, Half = #half{names = Names}}, #replica{half = #half{names = Known}}) ->
    Compact = fun({Name, Row}, Shared) ->
        case Known of
            #{Name := Same} when Same =:= Row -> {{Name, Same}, Shared};
            _ -> {Kept, Next} = heal_row:share(Row, Shared), {{Name, Kept}, Next}
        end
    end,
    {Rows, _} = lists:mapfoldl(Compact, #{}, maps:to_list(Names)),
    {At, Half#half{names = maps:from_list(Rows)}}.

%% Takes the replica of an earlier version over.
-spec upgrade(Earlier :: replica()) -> replica().
upgrade({replica, Life, At, Led, Half = #half{names = Names}, Limit}) ->
    #replica{life = Life, at = At, led = Led, half = Half#half{names = maps:map(fun heal_row:upgrade/2, Names)}, limit = Limit};
upgrade(Replica) ->
    Replica.
