%% What the modules of a part share: the state of one node's registry. It has no process, clock or table of its own.
-include("heal_replica.hrl").

%% A connected node: whether its registry has announced itself, has none, takes no requests, or is refused for this reason.
-record(link, {
    type = visible :: visible | hidden,
    state = unknown :: unknown | peer | absent | deaf | {refused, heal_peers:refusal(), Info :: term()}
}).

%% What another registry has announced last. `retry' is when to attempt the next exchange with it, and `failed' why the last one
%% failed; `adopted' is the last of its requests to register a process of this node.
-record(peer, {
    life :: heal_replica:life(),
    seq :: non_neg_integer(),
    number :: non_neg_integer(),
    at :: heal_replica:position(),
    members = [] :: [node()],
    is_settled = false :: boolean(),
    heard :: integer(),
    %% When it announced itself for the first time.
    met :: integer(),
    retry = 0 :: integer() | none,
    failed = none :: none | silent | heal_peers:refusal() | pos_integer(),
    adopted = 0 :: non_neg_integer()
}).

%% A node that follows the view of this primary. `was' is the view that it had before, until it has joined; `taken' its last request, once it
%% has joined this view or one before.
-record(member, {
    life :: heal_replica:life(),
    was :: none | heal_replica:view(),
    is_joined = false :: boolean(),
    %% It has missed an entry, so it gets no other ones before a snapshot.
    is_lagging = false :: boolean(),
    taken = none :: none | non_neg_integer()
}).

%% An edit that isn't answered. `from' is a caller of this node; a node that requests that this one registers a process; a member
%% that requests an edit; a home that restores what it computed at this operation; or nobody. Only the first two have a deadline.
-record(call, {
    from = none :: none | {caller, term()} | {adopting, node(), pos_integer()} | {member, node(), pos_integer()}
        | {home, non_neg_integer()},
    edit :: heal_edits:edit(),
    deadline = none :: none | integer(),
    %% The home has confirmed that it answers no more for this owner, before the entry has come.
    released = none :: none | heal:owner(),
    is_sent = false :: boolean(),
    %% It was sent in an earlier view, which may have made it.
    is_repeated = false :: boolean(),
    %% A full connection to the primary has refused it.
    is_refused = false :: boolean()
}).

%% An exchange: this node leads it and waits for an answer (`asking'), has answered (`engaged'), or both have begun (`open').
-record(asking, {node :: node(), reference :: reference() | term(), deadline :: integer()}).
-record(open, {
    node :: node(),
    number :: pos_integer(),
    side :: a | b,
    from :: heal_replica:position(),
    %% The side of libheal, and once it is done what is reported of it.
    handle :: term(),
    %% The rows that this side offered, and those of the other side.
    own = #{} :: #{heal:name() => #row{}},
    others = none :: none | heal_processes:groups(),
    programs = #{} :: #{binary() => binary()},
    members = [] :: [heal_meeting:member()],
    withdrawn = [] :: [heal:name()],
    %% `planned' on the leader, and `done' on the other node.
    stage = offered :: offered | listed | {finished, heal_meeting:outcome()} | {merged, heal_meeting:merge()}
        | {planned, heal_meeting:merge(), heal_home:plan()} | {done, #half{}, heal_home:plan()},
    begun :: integer(),
    deadline :: integer(),
    %% The processes of the other side by their names, once somebody registers meanwhile.
    theirs = none :: none | #{heal:name() => pid()},
    %% The view that the leader has started, before this node is done.
    led = none :: none | heal_replica:view()
}).

%% What this node is about to offer: the half of this view, on side b without the names of these members of the leader's part. `touched'
%% has the names that were edited since.
-record(prepared, {
    at :: heal_replica:position(),
    members :: [heal_meeting:member()],
    names :: #{heal:name() => #row{}},
    handle :: term(),
    side :: a | b,
    touched = #{} :: #{heal:name() => edited}
}).

%% The position and the half that a primary had before its view, with the entries that led there, for nodes that may have them too, or
%% almost: a node gets what differs (`new'), has been sent that (`sent'), or lacks some of the entries (`behind').
-record(base, {at :: heal_replica:position(), half :: #half{}, recent :: heal_recent:recent(),
               nodes :: #{node() => new | sent | behind}}).

-record(part, {
    node :: node(),
    number :: 0..16#ffffffff,
    scope :: term(),
    nodes :: any | [node()],
    world :: module(),
    edit_timeout :: pos_integer(),
    exchange_timeout :: pos_integer(),
    now = 0 :: integer(),
    out = [] :: [heal_part:action()],
    replica :: heal_replica:replica(),
    %% The registrations that this node answers for.
    own = #{} :: #{heal:name() => #row{}},
    %% The programs that this node's callers rely on.
    programs = #{} :: #{Id :: binary() => Code :: binary()},
    links = #{} :: #{node() => #link{}},
    peers = #{} :: #{node() => #peer{}},
    %% The greatest view of each node that this one followed.
    followed = #{} :: #{node() => {Incarnation :: non_neg_integer(), Number :: pos_integer()}},
    seq = 0 :: non_neg_integer(),
    next_pulse = 0 :: integer(),
    %% Of a primary. The losers of the exchange that started its view are kept until all have joined.
    members = #{} :: #{node() => #member{}},
    settle_by = none :: none | integer(),
    losers = [] :: heal_losers:losers(),
    %% What it has unregistered or changed in its view after the operation `since', with the operation.
    dropped = #{} :: #{heal:owner() => pos_integer()},
    since = 0 :: non_neg_integer(),
    %% Of a backup: its primary is gone or has moved on, and it waits for another view until this time.
    limbo = none :: none | integer(),
    %% The last announcement of its primary that it has acted on, or knew when it entered the view.
    checked = 0 :: non_neg_integer(),
    %% The operation after which an entry is missing, or the next view, once a snapshot is on its way.
    gap = none :: none | non_neg_integer() | heal_replica:view(),
    %% Nodes that may have names, until which time edits wait for them.
    awaited = #{} :: #{node() => integer()},
    %% The greatest number of an exchange that this node began or took the outcome of.
    greatest = 0 :: non_neg_integer(),
    heal = idle :: idle | {asking | engaged, #asking{}} | #open{},
    %% Edits that wait, the newest first; those that the primary is to carry out; those whose home hasn't confirmed.
    waiting = [] :: [#call{}],
    requests = 0 :: non_neg_integer(),
    requested = #{} :: #{pos_integer() => #call{}},
    unreleased = #{} :: #{pos_integer() => #call{}},
    %% Registrations of other nodes' processes: their requests, and those whose entry hasn't arrived.
    adopting = #{} :: #{pos_integer() => {node(), #call{}}},
    arriving = #{} :: #{heal:owner() => #call{}},
    %% Callers that unregistered a name which this node still has.
    leaving = #{} :: #{heal:owner() => #call{}},
    syncing = [] :: [term()],
    problems = #{} :: heal_peers:problems(),
    %% Fields of later versions follow, so that a version takes over a state of an earlier one by adding the last fields.
    %%
    %% The programs on this node's disk, or `none' without a disk; why it can't be written; uploads that wait for it.
    stored = none :: none | #{Id :: binary() => stored},
    unwritable = none :: none | term(),
    storing = [] :: [{Id :: binary(), #call{}}],
    prepared = none :: none | #prepared{},
    %% Primaries whose query this one has declined, with the nodes of their parts: it invites them once it is ready.
    declined = #{} :: #{node() => {Reference :: term(), [node()]}},
    %% Which of `own' an exchange gave to another process, while the notice waits.
    lost = #{} :: #{heal:name() => heal_losers:loss()},
    %% Nodes whose connections are full, with the bodies that wait for them, the newest first; or have been a moment ago.
    full = #{} :: #{node() => {refusing, Count :: non_neg_integer(), [Body :: term()]} | resting},
    %% Nodes that take the processes of an offer in groups.
    grouping = #{} :: #{node() => true},
    %% Nodes that take differences, and leave it to the larger of two parts to lead an exchange.
    differing = #{} :: #{node() => true},
    %% Of a primary, until its view is settled.
    base = none :: none | heal_difference:base(),
    %% The latest entries that this node has made or applied.
    recent = heal_recent:new() :: heal_recent:recent(),
    %% Of a backup: when it may compare its registrations with its half again, and when it wants a snapshot again that hasn't arrived.
    next_check = 0 :: integer(),
    next_want = 0 :: integer(),
    %% Of a primary: the registrations that it has granted in an exchange, and makes when that is over.
    granted = #{} :: #{heal:name() => #call{}},
    %% Whether it is about to send a snapshot.
    is_welcoming = false :: boolean(),
    %% Of a backup: the last of its requests that its primary took before it began this view.
    taken = none :: none | {heal_replica:view(), Last :: non_neg_integer()},
    %% Whether it is about to settle its view.
    is_settling = false :: boolean()
}).
