%% @private The protocol of heal_registry, without processes: an event and the time go in, actions and a state come out.
%%
%% Each node is in one *part*: the nodes that follow one view. Its primary orders the edits and sends their entries to the other
%% nodes. Every node announces its position to all nodes that it is connected with, when it changes its view and as a pulse. All
%% else follows from what the others announced last, so a message that is lost or late delays a node and never misleads it:
%%
%% - A primary drops the names of nodes that don't follow it (heal_view).
%% - A node whose primary is gone follows the smallest node of its part, or starts its own view (heal_view).
%% - Two connected primaries exchange, and one starts a view with the outcome (heal_meeting).
%% - The home of a registration knows whether it was acknowledged. It has a missing one restored and an extra one dropped, and
%%   leaves a part that has given its name to another process, so that an exchange decides (heal_home).
-module(heal_part).

-include("heal_part.hrl").

-export([new/1, handle/3, upgrade/1, status/1, position/1, own/1, count/1, tick/1, is_idle/1]).
-export_type([part/0, event/0, action/0, step/0, settings/0, status/0]).

-opaque part() :: #part{}.
-type settings() :: #{
    life := heal_replica:life(),
    number := non_neg_integer(),
    scope := term(),
    nodes := any | [node()],
    %% How many names the part may have.
    names := pos_integer(),
    world := module(),
    now := non_neg_integer(),
    %% The nodes that are connected already.
    connected := [{node(), visible | hidden}],
    %% Greater than all that the node's registry used before in this life.
    seq := non_neg_integer(),
    edit_timeout := pos_integer(),
    exchange_timeout := pos_integer(),
    replica => heal_replica:replica(),
    %% Whether the half of the replica is that of its position, for sure.
    is_exact => boolean(),
    own => #{heal:name() => #row{}},
    programs => #{Id :: binary() => Code :: binary()},
    %% What is on the disk.
    disk => heal_storing:stored(),
    greatest => non_neg_integer(),
    problems => heal_peers:problems()
}.
-type event() ::
    {up, node(), visible | hidden}
    | {down | stopped | absent | failed, node()}
    %% The connection has refused these bodies, the newest first; takes messages again; and has done so for a while.
    | {refused, node(), Bodies :: [term()]}
    | {drained | rested, node()}
    | {connecting | attempted, node()}
    | {version, node(), Version :: term()}
    | {message, node(), Body :: term()}
    | {call, From :: term(), heal_edits:edit()}
    | {sync, From :: term()}
    | {died, heal:name(), heal:owner()}
    | {disk, Stored :: [Id :: binary()], Lacking :: [Id :: binary()], Problem :: none | term()}
    %% All actions of the event before are done; or the messages that had arrived are handled.
    | {continue, step()}
    | tick.
-type step() :: {hear | finish, Number :: pos_integer(), Message :: term()}
    | {prepare, Reference :: term(), [heal_meeting:member()]}
    | {begin_with, Reference :: term(), Greatest :: non_neg_integer(), [heal_meeting:member()]}
    | {propose, Reference :: term(), Number :: pos_integer(), Seed :: non_neg_integer(), [heal_meeting:member()]}
    | {judge, Number :: pos_integer(), Offer :: binary()}
    | {merge | plan | lead | led | keep | follow, Number :: pos_integer()}
    | welcome | settle.
-type action() ::
    {send, node(), Body :: term()}
    %% What a connection has refused, which goes before what waits to be sent to the node.
    | {again, node(), Bodies :: [term()]}
    %% Entries for these nodes, which may wait for later ones. A body that is sent to a node goes after them.
    | {post, [node()], Entries :: term()}
    | {reply, From :: term(), Answer :: term()}
    | {rows, Put :: [{heal:name(), #row{}}], Drop :: [heal:name()]}
    %% The process of the name has ended, and its row stays for a while.
    | {hide, heal:name()}
    %% A row whose process has ended: the table has it for a while, and no process finds it.
    | {ended, heal:name(), #row{}}
    | {own, heal:name(), #row{}}
    | {disown, heal:name(), #row{}}
    %% Processes that have lost their names: this node answers for them no more, and notifies them.
    | {lost, [{heal:name(), #row{}, heal_losers:loss()}]}
    | {keep, Key :: term(), Value :: term()}
    %% Registrations that this node answers for otherwise than the half has them, or that have lost their names.
    | {keep_own, [{heal:name(), #row{}}]}
    %% Registrations of which that is over.
    | {forget_own, [heal:name()]}
    %% Registrations that this node answers for and the half lacks. The table has them.
    | {restoring, [{heal:name(), #row{}}]}
    | {problems, heal_peers:problems()}
    | {healed, #{atom() => term()}}
    %% After the other actions, and before any other event.
    | {continue, step()}
    %% After the messages that have arrived.
    | {later, step()}
    | {view, heal_replica:view(), [node()]}.
-type status() :: #{atom() => term()}.

%% Starts a node's registry, with the replica and the registrations that it had before.
-spec new(settings()) -> {[action()], part()}.
new(Settings = #{life := Life = {Node, _}}) ->
    {Stored, Unwritable} = heal_storing:new(maps:get(disk, Settings, none)),
    Part = #part{
        node = Node,
        number = maps:get(number, Settings),
        scope = maps:get(scope, Settings),
        nodes = maps:get(nodes, Settings),
        world = maps:get(world, Settings),
        edit_timeout = maps:get(edit_timeout, Settings),
        exchange_timeout = maps:get(exchange_timeout, Settings),
        replica = heal_replica:within(maps:get(names, Settings), maps:get(replica, Settings, heal_replica:start(Life))),
        own = maps:get(own, Settings, #{}),
        programs = maps:get(programs, Settings, #{}),
        greatest = maps:get(greatest, Settings, 0),
        problems = maps:get(problems, Settings, #{}),
        now = maps:get(now, Settings),
        seq = maps:get(seq, Settings),
        requests = maps:get(seq, Settings),
        stored = Stored,
        unwritable = Unwritable
    },
    Up = fun({Other, Type}, Sum) -> heal_peers:link({up, Other, Type}, Sum) end,
    taken(heal_view:resume(maps:get(is_exact, Settings, true), lists:foldl(Up, Part, maps:get(connected, Settings)))).

taken(Part = #part{out = Out}) ->
    {lists:reverse(Out), Part#part{out = []}}.

%% Takes the state of an earlier version over: the fields that it lacks are the last ones.
-spec upgrade(Earlier :: part()) -> part().
upgrade(Earlier) ->
    Part = later(Earlier, record_info(size, part), [none, none, [], none, #{}, #{}, #{}, #{}, #{}, none, heal_recent:new(), 0, 0, #{}, false, none, false]),
    #part{replica = Replica, waiting = Waiting, requested = Requested, unreleased = Unreleased, adopting = Adopting} = Part,
    #part{arriving = Arriving, leaving = Leaving, storing = Storing} = Part,
    Each = fun(_, Call) -> call(Call) end,
    owned(tuple_size(Earlier) < #part.lost, exchanging(tuple_size(Earlier) < #part.grouping, Part#part{
        replica = heal_replica:upgrade(Replica),
        waiting = [call(Call) || Call <- Waiting],
        requested = maps:map(Each, Requested),
        unreleased = maps:map(Each, Unreleased),
        adopting = maps:map(fun(_, {Node, Call}) -> {Node, call(Call)} end, Adopting),
        arriving = maps:map(Each, Arriving),
        leaving = maps:map(Each, Leaving),
        storing = [{Id, call(Call)} || {Id, Call} <- Storing]
    })).

%% An exchange of a version before the field `grouping' goes no further: it knows the processes of the other side otherwise. Later ones may
%% lack the last fields.
exchanging(true, Part = #part{heal = Open}) when element(1, Open) =:= open ->
    Part#part{heal = idle, prepared = none};
exchanging(true, Part) ->
    Part#part{prepared = none};
exchanging(false, Part = #part{heal = Open}) when element(1, Open) =:= open ->
    Part#part{heal = later(Open, record_info(size, open), [none, none])};
exchanging(false, Part) ->
    Part.

%% A version before the field `lost' kept a registration that this node answers for with what became of it.
owned(false, Part) ->
    Part;
owned(true, Part = #part{own = Own}) ->
    Part#part{
        own = maps:map(fun(Name, {own, Row, _}) -> heal_row:upgrade(Name, Row) end, Own),
        lost = maps:filtermap(fun(_, {own, _, Loss}) -> Loss =/= none andalso {true, Loss} end, Own)
    }.

call(Earlier) ->
    case later(Earlier, record_info(size, call), [false, false]) of
        Call = #call{edit = {register, Name, Row}} -> Call#call{edit = {register, Name, heal_row:upgrade(Name, Row)}};
        Call -> Call
    end.

later(Record, Size, Last) ->
    list_to_tuple(tuple_to_list(Record) ++ lists:nthtail(length(Last) - (Size - tuple_size(Record)), Last)).

%% Handles an event. `Now' is a time in milliseconds that never decreases, from 0 on.
-spec handle(event(), Now :: integer(), part()) -> {[action()], part()}.
handle(Event, Now, Part) ->
    taken(event(Event, Part#part{now = Now})).

event({call, From, Edit}, Part) ->
    heal_edits:call(From, Edit, Part);
event({message, Node, Body}, Part = #part{links = Links}) when is_map_key(Node, Links) ->
    message(Node, Body, Part);
event({message, _Node, _Body}, Part) ->
    Part;
event({died, Name, Owner}, Part) ->
    heal_edits:died(Name, Owner, Part);
event({sync, From}, Part = #part{syncing = Syncing}) ->
    settled(Part#part{syncing = [From | Syncing]});
event({disk, Ids, Lacking, Problem}, Part) ->
    settled(heal_storing:reported(Ids, Lacking, Problem, Part));
event({continue, welcome}, Part) ->
    act(heal_view:welcome(Part));
event({continue, settle}, Part) ->
    act(heal_view:continue(Part));
event({continue, Step}, Part) ->
    act(heal_meeting:continue(Step, Part));
event(tick, Part) ->
    act(heal_meeting:expired(heal_edits:expired(heal_congestion:overdue(heal_peers:pulse(Part)))));
event({Kind, Node}, Part) when Kind =:= connecting; Kind =:= attempted ->
    settled(heal_peers:Kind(Node, Part));
event(Event = {Kind, Node}, Part) when Kind =:= down; Kind =:= stopped; Kind =:= absent ->
    act(heal_meeting:broken(heal_adopting:lost(Node, heal_peers:link(Event, Part))));
event({refused, Node, Bodies}, Part) ->
    act(heal_congestion:refused(Node, Bodies, Part));
event({Kind, Node}, Part) when Kind =:= drained; Kind =:= rested ->
    act(heal_congestion:Kind(Node, Part));
event({failed, Node}, Part) ->
    act(heal_meeting:failed_with(Node, heal_peers:failed(Node, Part)));
event(Event, Part) ->
    act(heal_meeting:broken(heal_peers:link(Event, Part))).

message(Node, {edit, At, Edits, By, Answer}, Part) ->
    heal_entries:entries(Node, At, Edits, By, Answer, Part);
message(Node, {request, View, Number, Edit}, Part) ->
    heal_orders:requested(Node, View, Number, Edit, Part);
message(Node, {answer, View, Number, Answer}, Part) ->
    heal_entries:answered(Node, View, Number, Answer, Part);
message(Node, {granted, View, Number}, Part) ->
    heal_grants:take(Node, View, Number, Part);
message(Node, {taken, View, Last}, Part) ->
    heal_entries:taken(Node, View, Last, Part);
message(Node, {adopt, Number, Edit}, Part) ->
    heal_adopting:adopt_for(Node, Number, Edit, Part);
message(Node, {adopted, Number, Answer}, Part) ->
    heal_adopting:adopted(Node, Number, Answer, Part);
message(_Node, {released, Number, Owner}, Part) ->
    heal_arrivals:released(Number, Owner, Part);
message(Node, {here, Here}, Part) ->
    act(heal_view:heard(Node, Here, heal_meeting:announced(Node, Here, Part)));
message(Node, {snapshot, Snapshot}, Part) ->
    act(heal_view:snapshot(Node, Snapshot, Part));
message(Node, {difference, Difference}, Part) ->
    act(heal_view:difference(Node, Difference, Part));
message(Node, {want, View}, Part) ->
    act(heal_view:wanted(Node, View, Part));
message(Node, {finished, Seq, At, Requests, Edits}, Part) ->
    act(heal_view:joined(Node, {Seq, At, Requests, Edits}, Part));
message(Node, {settled, At}, Part) ->
    heal_view:settled(Node, At, Part);
message(Node, Body, Part) ->
    act(heal_meeting:message(Node, Body, Part)).

%% Does what follows from the announcements of the other nodes.
act(Part) ->
    settled(heal_meeting:meet(heal_view:act(Part))).

%% Edits that no longer wait are carried out, and callers of sync receive their answers.
settled(Part) ->
    heal_peers:report(heal_edits:resume(heal_peers:sync(heal_peers:arrived(Part)))).

%% Returns how often to send `tick', in milliseconds.
-spec tick(part()) -> pos_integer().
tick(Part) ->
    heal_state:tick(Part).

%% Returns the replica's position, and the numbers of the latest view that it started and of the latest exchange.
-spec position(part()) -> {heal_replica:position(), Led :: pos_integer(), Latest :: non_neg_integer()}.
position(#part{replica = Replica}) ->
    #half{latest = Latest} = heal_replica:half(Replica),
    {heal_replica:position(Replica), heal_replica:led(Replica), Latest}.

%% Returns the registrations that this node answers for.
-spec own(part()) -> #{heal:name() => #row{}}.
own(#part{own = Own}) ->
    Own.

%% Returns whether this node waits for nothing.
-spec is_idle(part()) -> boolean().
is_idle(Part) ->
    heal_meeting:is_idle(Part).

%% Returns the number of names.
-spec count(part()) -> non_neg_integer().
count(Part) ->
    heal_state:count(Part).

%% Returns what `heal_registry:status/0' shows, apart from the table.
-spec status(part()) -> status().
status(Part = #part{replica = Replica, links = Links, greatest = Greatest}) ->
    {{{Primary, _}, Number}, Operation} = heal_replica:position(Replica),
    #{
        link => heal_meeting:name(Part),
        number => Greatest,
        primary => Primary,
        view => {Number, Operation},
        members => heal_view:members(Part),
        connected => lists:sort(maps:keys(Links))
    }.
