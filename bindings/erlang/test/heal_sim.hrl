%% What the modules of the simulator share.
-include("../src/heal_part.hrl").

%% An answer takes no longer than an edit's timeout and this: a node may hang for 8 seconds, and its timers may be 2 seconds late.
-define(SLOWEST, 10000).
-define(NAMES, 6).
%% How long a schedule has faults, and how long the nodes have to become one part afterwards, in milliseconds.
-define(FAULTY, 6000).
-define(QUIET, 60000).
%% How long they have in a patient schedule, in which all that a node does has to follow from events, and not from its timers.
-define(PROMPT, 3000).
%% How often to look whether the nodes are one part.
-define(LOOK, 600).
%% A registry fails after one step of this many, and amid the actions of one of this many events.
-define(STEPS, 20).
-define(WRITES, 300).
%% How many calls are made then.
-define(CALM, 20).
%% How many milliseconds a primary keeps entries that nobody waits for, and how long a node handles messages before it sends, at most.
-define(POSTED, 100).
-define(BUSY, 20).
%% How long a connection is full, one in eight of them four times as long, and how much longer a node sends no snapshot, in milliseconds and
%% at most.
-define(FULL, 400).
-define(RESTED, 300).
-define(TRACE, 60).

%% `table' and `own' are what the registry keeps; `backlog' are the events of a node that hangs; `disk' is what outlives it.
-record(node, {
    part = none :: none | heal_part:part(),
    life = 0,
    is_hung = false,
    backlog = [],
    table = #{},
    own = #{},
    kept = #{},
    outbox = heal_outbox:new() :: heal_outbox:outbox(),
    disk = #{} :: #{programs => #{binary() => binary()}, greatest => non_neg_integer()},
    offset = 0,
    rate = 1.0,
    runs = 0
}).

-record(sim, {
    now = 0,
    count = 0,
    queue = gb_trees:empty(),
    nodes = #{},
    %% Pairs that are connected, with the number of the connection.
    links = #{},
    epoch = 0,
    %% When the last event of each channel arrives.
    last = #{},
    %% The channels that take no messages, with the number of the connection.
    full = #{},
    faults = #{},
    %% The timeouts of edits and of exchanges. In patient schedules they are long, and no message is lost but by a full connection.
    timeouts = {1000, 2000},
    is_patient = false,
    %% Whether the nodes have a disk for programs and numbers.
    has_disks = false,
    is_quiet = false,
    is_calm = false,
    calls = #{},
    %% When the call that is being answered was made.
    since = 0,
    %% Changes that may be made at any time: also of a process that is registered later.
    perhaps = [],
    next = 1,
    processes = #{},
    positions = #{},
    %% The programs that a caller has uploaded on a node that still runs or has a disk.
    uploads = [],
    trace = [],
    is_traced = false
}).

%% What is known of a process: its name and node, when it was registered, with which answer, and its notices. `weights' are the
%% changes of its registration, each with the time of its call and of its answer.
-record(process, {name, node, asked, state = asked, owner = none, notices = 0, until = none, weights = []}).
