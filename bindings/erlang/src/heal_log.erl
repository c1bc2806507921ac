%% @private Keeps the programs of a node and the greatest number of its exchanges on a disk.
%%
%% The folder of the setting `dir' has a file for each node, `NODE.log': the snapshot of a replica, and then its entries. Nobody waits
%% for this process but uploads: it reports each write to the registry, which goes on without it. It ends with the registry.
%%
%% After a write that failed, the file may end with a part of an entry. So the next attempt reads it and replaces it by a new snapshot.
%% A file that isn't a log, or is damaged, stays as it is: the next attempt after somebody has moved it away writes another one.
-module(heal_log).

-behaviour(gen_server).

-include_lib("kernel/include/file.hrl").

-export([start/2, start_again/2, found/1, programs/2, number/2, file/1]).
-export([init/1, handle_continue/2, handle_call/3, handle_cast/2, handle_info/2]).
-export_type([found/0, problem/0]).

%% Milliseconds that the registry waits: at its start, for the process of an earlier registry to end, and for a number.
-define(READ, 5000).
-define(ENDS, 1000).
-define(NUMBER, 1000).
%% Milliseconds until the next attempt to write after one that failed.
-define(AGAIN, 5000).
%% How many entries a log has before it is replaced by a snapshot, and how many bytes a log may have.
-define(ENTRIES, 1000).
-define(MOST_BYTES, 64_000_000).

-type found() :: #{programs := #{Id :: binary() => Code :: binary()}, greatest := non_neg_integer(), disk := heal_storing:stored()}.
-type problem() :: {File :: file:filename_all(), why()}.
%% `not_a_log', `damaged' or a refusal by libheal: of what the file has. `replaced': another node of this name writes it.
-type why() :: {create | read | write, file:posix() | badarg | system_limit | terminated} | not_a_log | {damaged, Byte :: pos_integer()}
    | replaced | ended | pos_integer().

-record(log, {
    registry :: pid(),
    file :: file:filename_all(),
    %% The open file, with its inode and its size, and the replica that it has; `none' before a write and after one that failed.
    open = none :: none | #{device := file:fd(), inode := integer(), size := non_neg_integer(), replica := heal:replica(),
                            entries := non_neg_integer()},
    %% What the file has.
    stored = #{} :: #{Id :: binary() => Code :: binary()},
    number = 0 :: non_neg_integer(),
    %% What it is to have.
    programs = #{} :: #{Id :: binary() => Code :: binary()},
    greatest = 0 :: non_neg_integer(),
    problem = none :: none | problem(),
    timer = none :: none | reference()
}).

%% ---- The registry's calls ----

%% Starts the process for a registry. `busy' if that of an earlier registry doesn't end within a second.
-spec start(Dir :: file:name_all(), Registry :: pid()) -> {ok, pid()} | busy.
start(Dir, Registry) ->
    start(Dir, Registry, ?ENDS).

%% The same for a registry that has waited for the earlier process already.
-spec start_again(Dir :: file:name_all(), Registry :: pid()) -> {ok, pid()} | busy.
start_again(Dir, Registry) ->
    start(Dir, Registry, 0).

start(Dir, Registry, Wait) ->
    case gen_server:start({local, ?MODULE}, ?MODULE, {file(Dir), Registry}, []) of
        {ok, Log} ->
            {ok, Log};
        {error, {already_started, Earlier}} ->
            Monitor = monitor(process, Earlier),
            receive {'DOWN', Monitor, _, _, _} -> start(Dir, Registry, Wait) after Wait -> demonitor(Monitor, [flush]), busy end
    end.

%% Returns what the disk has at the start of a node; nothing if it doesn't answer.
-spec found(Log :: pid()) -> found() | none.
found(Log) ->
    try
        gen_server:call(Log, found, ?READ)
    catch
        exit:_ -> none
    end.

%% Has all these programs written. A report follows.
-spec programs(Log :: pid(), #{Id :: binary() => Code :: binary()}) -> ok.
programs(Log, Programs) ->
    gen_server:cast(Log, {programs, Programs}).

%% Has the number of an exchange written, and waits for that, but not for long.
-spec number(Log :: pid(), non_neg_integer()) -> ok.
number(Log, Number) ->
    try
        gen_server:call(Log, {number, Number}, ?NUMBER)
    catch
        exit:_ -> ok
    end.

%% Returns the file of this node in a folder.
-spec file(Dir :: file:name_all()) -> file:filename_all().
file(Dir) ->
    filename:join(Dir, atom_to_list(node()) ++ ".log").

%% ---- The process ----

%% @private
init({File, Registry}) ->
    _ = monitor(process, Registry),
    {ok, #log{registry = Registry, file = File}, {continue, open}}.

%% @private
handle_continue(open, Log) ->
    {noreply, reported(stored(Log))}.

%% @private
handle_call(found, _From, Log = #log{stored = Stored, number = Number, problem = Problem}) ->
    {reply, #{programs => Stored, greatest => Number, disk => {maps:keys(Stored), Problem}}, Log};
handle_call({number, Number}, _From, Log = #log{problem = Before, greatest = Greatest}) ->
    Next = #log{problem = After} = stored(Log#log{greatest = max(Number, Greatest)}),
    {reply, ok, case After of Before -> Next; _ -> reported(Next) end};
handle_call(_Unknown, _From, Log) ->
    {reply, {error, unknown_call}, Log}.

%% @private
handle_cast({programs, Programs}, Log = #log{programs = Before}) ->
    {noreply, reported(stored(Log#log{programs = maps:merge(Before, Programs)}))};
handle_cast(_Message, Log) ->
    {noreply, Log}.

%% @private
handle_info({'DOWN', _, process, Registry, _}, Log = #log{registry = Registry}) ->
    {stop, normal, Log};
handle_info({timeout, Timer, again}, Log = #log{timer = Timer}) ->
    {noreply, reported(stored(Log#log{timer = none}))};
handle_info(_Message, Log) ->
    {noreply, Log}.

reported(Log = #log{registry = Registry, stored = Stored, programs = Programs, problem = Problem}) ->
    Lacking = case Problem of none -> []; _ -> maps:keys(maps:without(maps:keys(Stored), Programs)) end,
    Registry ! {heal_registry, disk, self(), maps:keys(Stored), Lacking, Problem},
    Log.

%% ---- Writing ----

%% Writes what the file lacks, if it can.
stored(Log = #log{problem = {_, replaced}}) ->
    Log;
stored(Log = #log{open = none}) ->
    opened(Log);
stored(Log = #log{open = #{entries := Entries}}) when Entries > ?ENTRIES ->
    opened(closed(Log));
stored(Log = #log{open = Open = #{replica := Replica}}) ->
    {Entries, Problem} = entries(Replica, Log),
    case append(Entries, Open, Log) of
        {ok, Open} -> problem(Problem, Log);
        {ok, Appended} -> problem(Problem, written(Replica, Log#log{open = Appended}));
        replaced -> problem(replaced, closed(Log));
        error -> opened(closed(Log))
    end.

closed(Log = #log{open = #{device := Device}}) ->
    _ = file:close(Device),
    Log#log{open = none}.

problem(none, Log) ->
    Log#log{problem = none};
problem(Why, Log = #log{file = File, timer = none}) ->
    Log#log{problem = {File, Why}, timer = erlang:start_timer(?AGAIN, self(), again)};
problem(Why, Log = #log{file = File}) ->
    Log#log{problem = {File, Why}}.

%% Makes the edits that the replica lacks. Returns their entries, and why one of them isn't made.
entries(Replica, #log{programs = Programs, greatest = Greatest}) ->
    {Ids, _, Number} = content(Replica),
    New = maps:values(maps:without(Ids, Programs)),
    Made = [upload(Replica, Code) || Code <- New] ++ [heal:replica_begin(Replica, Greatest) || Greatest > Number],
    {[Entry || {ok, Entry} <- Made], hd([Refusal || {error, {Refusal, _}} <- Made] ++ [none])}.

upload(Replica, Code) ->
    case heal:load(Code) of
        {ok, Program} -> heal:replica_upload(Replica, Program);
        Refused -> Refused
    end.

%% The ids and the codes of a replica's programs, and its greatest number.
content(Replica) ->
    {ok, Side} = heal:replica_side(Replica, a),
    {ok, Ids} = heal:programs(Side),
    {ok, #{latest := Latest}} = heal:replica_query(Replica),
    Code = fun(Id) -> {ok, Code} = heal:code(Side, Id), Code end,
    {Ids, Code, case Latest of none -> 0; _ -> Latest end}.

%% The file has what the replica has. A file that replaces it later is to have that number too.
written(Replica, Log = #log{greatest = Greatest}) ->
    {Ids, Code, Number} = content(Replica),
    Log#log{stored = maps:from_list([{Id, Code(Id)} || Id <- Ids]), number = Number, greatest = max(Greatest, Number)}.

append(Entries, Open = #{device := Device, size := Size, entries := Count}, Log) ->
    case is_open(Open, Log) of
        true when Entries =:= [] -> {ok, Open};
        true ->
            case and_then([fun() -> file:write(Device, Entries) end, fun() -> file:datasync(Device) end]) of
                ok -> {ok, Open#{size := Size + iolist_size(Entries), entries := Count + length(Entries)}};
                {error, _} -> error
            end;
        Otherwise -> Otherwise
    end.

%% Another node of this name may have replaced the file, and somebody may have deleted it.
is_open(#{inode := Inode, size := Size}, #log{file = File}) ->
    case file:read_file_info(File, [raw]) of
        {ok, #file_info{inode = Inode, size = Size}} -> true;
        {ok, _} -> replaced;
        {error, _} -> error
    end.

%% ---- Opening ----

%% Reads the file and replaces it by one that has what it lacks too.
opened(Log = #log{file = File}) ->
    {ok, Replica} = heal:replica(heal_facts:number(node()), erlang:system_time(nanosecond)),
    case read(File) of
        {ok, Bytes} ->
            case replayed(Replica, Bytes, 0) of
                ok -> replace(Replica, written(Replica, Log));
                Why -> problem(Why, written(Replica, Log))
            end;
        none -> replace(Replica, Log);
        {error, Why} -> problem(Why, Log)
    end.

read(File) ->
    case {filelib:ensure_path(filename:dirname(File)), file:read_file_info(File, [raw])} of
        {{error, Why}, _} -> {error, {create, Why}};
        {ok, {ok, #file_info{type = regular, size = Size}}} when Size =< ?MOST_BYTES -> bytes(file:read_file(File));
        {ok, {ok, _}} -> {error, not_a_log};
        {ok, {error, enoent}} -> none;
        {ok, {error, Why}} -> {error, {read, Why}}
    end.

bytes({ok, Bytes}) -> {ok, Bytes};
bytes({error, Why}) -> {error, {read, Why}}.

%% Follows the snapshot of a log and applies its entries, up to the last whole one.
replayed(Replica, Log, At) ->
    case heal:log_front(Log) of
        {ok, empty} -> ok;
        {ok, cut} when At > 0 -> ok;
        {ok, {Kind, Size}} ->
            <<Message:Size/binary, Rest/binary>> = Log,
            case {replay(Kind, Replica, Message), Rest} of
                {ok, _} -> replayed(Replica, Rest, At + Size);
                %% The disk hasn't written all of the last entry.
                {{error, {84, _}}, <<>>} when At > 0 -> ok;
                {{error, _}, _} when At > 0 -> faulty(Replica, Log, At);
                {{error, _}, _} when Kind =:= snapshot -> {damaged, At};
                {{error, _}, _} -> not_a_log
            end;
        _ when At =:= 0 -> not_a_log;
        _ -> faulty(Replica, Log, At)
    end.

%% After a power cut some file systems leave zeros behind the part of an entry that they have written. Anything else is damage.
faulty(Replica, Log, At) ->
    case without_zeros(Log, byte_size(Log)) of
        Log -> {damaged, At};
        Written -> replayed(Replica, Written, At)
    end.

without_zeros(Log, Size) when Size > 0 ->
    case binary:at(Log, Size - 1) of
        0 -> without_zeros(Log, Size - 1);
        _ -> binary:part(Log, 0, Size)
    end;
without_zeros(_Log, 0) ->
    <<>>.

replay(snapshot, Replica, Message) -> heal:replica_follow(Replica, Message);
replay(entry, Replica, Message) -> heal:replica_apply(Replica, Message).

%% Writes a new file, and gives it the name of the old one: after a crash either is whole.
replace(Replica, Log = #log{file = File}) ->
    ok = heal:replica_lead(Replica),
    {_, Refusal} = entries(Replica, Log),
    {ok, Snapshot} = heal:replica_snapshot(Replica),
    New = new(File),
    case file:open(New, [raw, binary, write]) of
        {ok, Device} ->
            Steps = [fun() -> file:write(Device, Snapshot) end, fun() -> file:sync(Device) end, fun() -> file:rename(New, File) end],
            named(and_then(Steps), Refusal, Device, Replica, byte_size(Snapshot), Log);
        {error, Why} ->
            problem({write, Why}, Log)
    end.

%% The folder of the setting may be a string or a binary.
new(File) when is_binary(File) -> <<(filename:rootname(File))/binary, ".new">>;
new(File) -> filename:rootname(File) ++ ".new".

named(ok, Refusal, Device, Replica, Size, Log = #log{file = File}) ->
    sync_folder(filename:dirname(File)),
    case file:read_file_info(File, [raw]) of
        {ok, #file_info{inode = Inode, size = Size}} ->
            Open = #{device => Device, inode => Inode, size => Size, replica => Replica, entries => 0},
            problem(Refusal, written(Replica, Log#log{open = Open}));
        _ ->
            _ = file:close(Device),
            problem(replaced, Log)
    end;
named({error, Why}, _Refusal, Device, _Replica, _Size, Log) ->
    _ = file:close(Device),
    problem({write, Why}, Log).

%% Not every system can sync a folder.
sync_folder(Folder) ->
    case file:open(Folder, [raw, read, directory]) of
        {ok, Device} -> _ = file:sync(Device), file:close(Device);
        {error, _} -> ok
    end.

and_then([]) -> ok;
and_then([Step | Rest]) ->
    case Step() of
        ok -> and_then(Rest);
        Failed -> Failed
    end.
