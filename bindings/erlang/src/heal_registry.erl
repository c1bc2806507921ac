%% @doc A registry of names for a cluster, for `{via, heal_registry, Name}'. It heals when nodes meet after a split.
%%
%% The nodes that are connected form one part: a table of names, which each node has. One of them, the primary, orders all edits
%% and sends them to the others. {@link whereis_name/1} reads the table of the caller's node and never waits. When the network splits,
%% each side goes on as a separate part. When two parts meet, their primaries exchange, every clash of two processes under one
%% name is decided by its resolver, and all nodes of both follow the outcome. Edits wait meanwhile.
%%
%% Any term is a name. An atom, a string or a binary of 1 to 32 bytes from 16#21 to 16#7e is the name that its bytes spell: `db',
%% "db" and `<<"db">>' are one name. The node of a process registers it, watches it and delivers its notices; the process of a
%% node that runs no registry belongs to the node that registers it. Owners that lose a name are notified as by the resolvers of
%% `global': killed for `exit', the message `{global_name_conflict, Name}' for `notify' and for a program, `{global_name_conflict,
%% Name, OtherPid}' where neither keeps it.
%%
%% An edit waits at most `edit_timeout' milliseconds. Then it is refused with `{timeout, not_made}', which means that it never
%% happens, or with `{timeout, unknown}' if another node has it and may still carry it out.
%%
%% The names live as long as the process that starts the registry, usually a supervisor: a registry that crashes has them
%% again when it is restarted.
-module(heal_registry).

-include("heal_replica.hrl").

-export([start_link/1, register_name/2, register/3, update/2, set_resolver/2, unregister_name/1, whereis_name/1, send/2]).
-export([upload/1, names/0, names/1, count/0, info/1, status/0, sync/0, subscribe/0, subscribe/1, unsubscribe/1]).
-export_type([options/0, reason/0, info/0]).

-compile({no_auto_import, [register/2]}).

%% How often a caller looks for a registry that is being restarted, and the milliseconds in between.
-define(ATTEMPTS, 25).
-define(PAUSE, 20).
-define(PATIENCE, 5000).
-define(NAME_TAKEN, 30).
-define(NO_SUCH_NAME, 31).

-type options() :: #{
    nodes := any | [node()],
    scope => term(),
    names => pos_integer(),
    edit_timeout => pos_integer(),
    exchange_timeout => pos_integer(),
    reconnect_interval => pos_integer() | never,
    dir => file:name_all() | none,
    send => fun((node(), term()) -> term())
}.
-type reason() :: heal:refusal() | noproc | {same_digest, Name :: term()} | {not_stored, heal_log:problem()} | bad_edit
    | {timeout | noconnection | ended, not_made | unknown}.
%% A refusal; the process has ended; another term has the digest of this name; the part has the program and this node's disk hasn't;
%% the primary has an earlier version, which doesn't know the edit; or the reason why an edit got no answer, and whether it may have
%% been made. `timeout': within `edit_timeout'. `noconnection': the node of the process isn't connected. `ended': the registry ended.
-type info() :: #{
    name := term(),
    pid := pid(),
    home := node(),
    owner := heal:owner(),
    stamp := non_neg_integer(),
    weight := non_neg_integer(),
    extra := binary(),
    resolver := heal:resolver()
}.

%% @doc Starts the registry of this node. `nodes' has the nodes of the cluster, with this one, or is `any' for all nodes that run
%% the registry in the same `scope'. `names' is how many names a part may have, up to 1,048,576. The application's settings have the
%% same names as the other options, which are in milliseconds.
%% `edit_timeout' limits how long an edit waits, `exchange_timeout' how long an exchange waits for the other node. The registry
%% connects nodes that are apart every `reconnect_interval', unless that is `never'. Programs and the greatest number of an exchange
%% are kept in the folder `dir', unless that is `none'. `send' replaces how messages are sent to other nodes, for tests.
-spec start_link(options()) -> gen_server:start_ret().
start_link(Options = #{nodes := _}) ->
    ok = heal_keeper:hold(self()),
    heal_server:start_link(self(), Options);
start_link(Options) ->
    error(badarg, [Options]).

%% @doc Registers a name with the resolver of the application's configuration. Returns `no' if it can't be registered.
-spec register_name(Name :: term(), pid()) -> yes | no.
register_name(Name, Pid) ->
    case register(Name, Pid, #{}) of
        ok ->
            yes;
        {error, {?NAME_TAKEN, _}} ->
            no;
        {error, Reason} ->
            logger:warning("heal_registry: ~p isn't registered for ~p: ~p", [Name, Pid, Reason]),
            no
    end.

%% @doc Registers a name. Options are `stamp', `weight', `extra' and `resolver' of {@link heal:registration()}; a stamp that
%% isn't given is the time in milliseconds. Raises `badarg' for an argument of another kind.
-spec register(Name :: term(), pid(), Options :: map()) -> ok | {error, reason()}.
register(Name, Pid, Options) when is_pid(Pid), is_map(Options) ->
    Bytes = heal_names:name(Name),
    case call({edit, {adopt, Bytes, Name, heal_names:options(Options), Pid, node(Pid)}}) of
        Refused = {error, {?NAME_TAKEN, _}} -> taken(Bytes, Name, Refused);
        Answer -> Answer
    end;
register(Name, Pid, Options) ->
    error(badarg, [Name, Pid, Options]).

%% Another term may have the digest.
taken(Bytes, Name, Refused) ->
    case heal_table:row(Bytes) of
        {ok, #row{term = Other}} when Other =/= Name -> other(Other, heal_names:is_same(Other, Name), Refused);
        _ -> Refused
    end.

other(_Other, true, Refused) -> Refused;
other(Other, false, _Refused) -> {error, {same_digest, Other}}.

%% @doc Changes the registration of a name: those of `stamp', `weight', `extra' and `resolver' that are given. Returns refusal 31 if
%% nobody has the name, and 41 if the program is unknown. Raises `badarg' for an argument of another kind.
-spec update(Name :: term(), Options :: map()) -> ok | {error, reason()}.
update(Name, Options) ->
    _ = heal_names:are_options(Options) orelse error(badarg, [Name, Options]),
    Bytes = heal_names:name(Name),
    case is_other(Bytes, Name) of
        true -> {error, {?NO_SUCH_NAME, heal:refusal_words(?NO_SUCH_NAME)}};
        false -> updated(call({edit, {change, Bytes, any, Options}}))
    end.

updated({ok, _Owner}) -> ok;
updated(Refused) -> Refused.

%% Returns whether another term of this digest has the name.
is_other(<<"$", _:22/binary>> = Bytes, Name) ->
    _ = heal_table:is_running() orelse not_running(),
    case heal_table:row(Bytes) of
        {ok, #row{term = Other}} -> not heal_names:is_same(Other, Name);
        none -> false
    end;
is_other(_Printable, _Name) ->
    false.

%% @doc Changes the resolver of a name, as {@link update/2} does.
-spec set_resolver(Name :: term(), heal:resolver()) -> ok | {error, reason()}.
set_resolver(Name, Resolver) ->
    update(Name, #{resolver => Resolver}).

%% @doc Unregisters a name. Returns `ok' also if nobody has it.
-spec unregister_name(Name :: term()) -> ok | {error, reason()}.
unregister_name(Name) ->
    Bytes = heal_names:name(Name),
    case is_other(Bytes, Name) orelse call({edit, {unregister, Bytes, any}}) of
        {error, {Why, Whether}} when is_atom(Why) -> {error, {Why, Whether}};
        _ -> ok
    end.

%% @doc Returns the process of a name, as this node knows it.
-spec whereis_name(Name :: term()) -> pid() | undefined.
whereis_name(Name) when is_atom(Name) ->
    spelled(atom_to_binary(Name), Name);
whereis_name(Name) when is_binary(Name) ->
    spelled(Name, Name);
whereis_name(Name) ->
    found(heal_table:find(heal_names:name(Name), Name)).

%% Most names are printable: what the table has under the bytes is the name, and only what it lacks has to be checked.
spelled(Bytes, Name) ->
    case heal_table:find(Bytes, Name) of
        none -> found(heal_table:find(heal_names:name(Name), Name));
        Found -> found(Found)
    end.

found({ok, Pid}) -> Pid;
found(none) -> undefined;
found(not_running) -> not_running().

%% @doc Sends a message to the process of a name.
-spec send(Name :: term(), Message :: term()) -> pid().
send(Name, Message) ->
    case whereis_name(Name) of
        undefined -> exit({badarg, {Name, Message}});
        Pid -> Pid ! Message, Pid
    end.

%% @doc Verifies a program and keeps it on all nodes of the part for registrations. Returns its id. With the setting `dir' the program
%% is then on the disk of this node.
-spec upload(Code :: binary()) -> {ok, Id :: binary()} | {error, reason()}.
upload(Code) when is_binary(Code) ->
    _ = heal_table:is_running() orelse not_running(),
    case heal:load(Code) of
        {ok, Program} ->
            {ok, Id} = heal:program_id(Program),
            call({edit, {upload, Id, Code}});
        Refused ->
            Refused
    end;
upload(Code) ->
    error(badarg, [Code]).

%% @doc Returns all names, in the form in which they were registered.
-spec names() -> [term()].
names() ->
    _ = heal_table:is_running() orelse not_running(),
    heal_table:names().

%% @doc Returns the names of a process, in the form in which they were registered. It reads the whole table.
-spec names(pid()) -> [term()].
names(Pid) when is_pid(Pid) ->
    _ = heal_table:is_running() orelse not_running(),
    heal_table:names(Pid);
names(Other) ->
    error(badarg, [Other]).

%% @doc Returns how many names this node knows.
-spec count() -> non_neg_integer().
count() ->
    _ = heal_table:is_running() orelse not_running(),
    heal_table:count().

%% @doc Returns what is registered under a name, as this node knows it. `home' is the node that watches the process.
-spec info(Name :: term()) -> info() | undefined.
info(Name) ->
    case heal_table:info(heal_names:name(Name), Name) of
        {ok, Row = #row{pid = Pid, term = Term, home = {Home, _}}} ->
            (heal_row:registration(Row))#{name => Term, pid => Pid, home => Home};
        none ->
            undefined;
        not_running ->
            not_running()
    end.

%% @doc Returns the part of this node: its `primary' and `members', its `view', the nodes that are `connected', the greatest
%% `number' of an exchange, the count of `names', and how it is linked: `apart' from all others, `asking' for an exchange, `open'
%% or `joined'. `problems' has what keeps nodes apart: refusals by their number, `nodes', `scope', `hidden' and `numbers' for
%% nodes with other settings, `version' for other messages, `silent' for a node that is connected and doesn't answer, and `dir' for a disk
%% that can't be written.
-spec status() -> #{
    link := apart | asking | open | joined,
    number := non_neg_integer(),
    names := non_neg_integer(),
    problems := #{heal_problems:problem() => Words :: binary()},
    atom() => term()
} | {error, reason()}.
status() ->
    counted(call(status)).

%% The caller counts the names, which takes a while where there are many.
counted(Status) when is_map(Status) -> Status#{names => count()};
counted(Refused) -> Refused.

%% @doc Waits until this node has healed with all connected nodes that run a registry. Right after its start a registry that
%% connects nodes waits for that too. Returns `{error, apart}' if they can't heal: {@link status/0} shows why.
-spec sync() -> ok | {error, apart | reason()}.
sync() ->
    call(sync).

%% @doc Like {@link subscribe/1}, for the calling process.
-spec subscribe() -> ok | {error, reason()}.
subscribe() ->
    subscribe(self()).

%% @doc Sends a process the message `{heal_registry, Event}' for each event of this node from now on, until it ends: see
%% {@link heal_events:event()}. A registry that is restarted has no subscribers. A process on another node is none any more once more than
%% 10,000 events wait for it, and then receives `{heal_registry, unsubscribed}'.
-spec subscribe(pid()) -> ok | {error, reason()}.
subscribe(Pid) when is_pid(Pid) ->
    call({subscribe, Pid});
subscribe(Other) ->
    error(badarg, [Other]).

%% @doc Ends a subscription.
-spec unsubscribe(pid()) -> ok | {error, reason()}.
unsubscribe(Pid) when is_pid(Pid) ->
    call({unsubscribe, Pid});
unsubscribe(Other) ->
    error(badarg, [Other]).

%% Calls the registry. A registry that has failed is restarted soon.
call(Request) ->
    call(Request, ?ATTEMPTS).

call(Request, Attempts) ->
    try
        gen_server:call(?MODULE, Request, heal_table:patience(?PATIENCE))
    catch
        exit:{noproc, _} -> call_again(Request, Attempts - 1);
        exit:{timeout, _} -> {error, {timeout, unknown}};
        exit:{_Reason, {gen_server, call, _}} -> {error, {ended, unknown}}
    end.

call_again(Request, Attempts) ->
    _ = Attempts > 0 andalso heal_table:is_running() orelse not_running(),
    timer:sleep(?PAUSE),
    call(Request, Attempts).

-spec not_running() -> no_return().
not_running() ->
    exit({not_running, ?MODULE}).
