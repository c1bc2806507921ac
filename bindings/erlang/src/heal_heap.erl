%% @private The heap of the registry's process: room for an exchange, and little more than it needs otherwise.
%%
%% The virtual machine sizes a heap by what was in it before a collection, and rarely makes one smaller. So the registry collects its
%% garbage itself while it is quiet: when a quarter of the rows has changed, and when its heap has grown. While edits go on it leaves that
%% to the virtual machine: the rows of a million names take a quarter of a second.
-module(heal_heap).

-export([new/1, expecting/1, roomy/2, cleaned/2, changed/2, timed/2, quiet/4, tick/3]).
-export_type([heap/0]).

%% Words during an exchange: for each name, up to a limit, and for each name of a table for which the limit is too small.
-define(ROOM_FOR_NAME, 300).
-define(ROOM, 6000000).
-define(ROOM_OF_MANY, 60).
%% Words at other times, at least.
-define(USUAL, 20000).
%% The most words that edits leave, for each name and in addition. An exchange's room is larger.
-define(BUSY_FOR_NAME, 200).
-define(BUSY, 200000).
%% Milliseconds without a changed row, at least, and the names for which it waits one more.
-define(QUIET, 50).
-define(NAMES_OF_QUIET, 100).
%% From this many names on a collection takes longer than an edit should.
-define(MANY, 20000).

-record(heap, {
    %% How many rows have changed since the last collection, and whether a timer waits until no more do.
    changed :: non_neg_integer(),
    is_timed = false :: boolean(),
    %% The words of the process after the last collection of a tick, or 0 if one is due.
    words = 0 :: non_neg_integer(),
    %% How many rows had changed at the last tick, and when fewer had, in milliseconds.
    seen = 0 :: non_neg_integer(),
    since :: integer()
}).

-opaque heap() :: #heap{}.

%% Returns the heap of a process that has made this many rows.
-spec new(Rows :: non_neg_integer()) -> heap().
new(Rows) ->
    usual(),
    #heap{changed = Rows, since = now_in_milliseconds()}.

%% Makes room for this many rows, which the process is about to make.
-spec expecting(Rows :: non_neg_integer()) -> ok.
expecting(Rows) ->
    _ = room(Rows),
    ok.

%% An exchange of tables of this many names makes much garbage. With more room fewer collections copy the rows. A tick takes the room
%% back.
-spec roomy(Names :: non_neg_integer(), heap()) -> heap().
roomy(Names, Heap) ->
    _ = room(Names),
    changed(Names, Heap).

%% Returns the words that there was room for before.
room(Names) ->
    Room = room_for(Names),
    _ = process_flag(min_bin_vheap_size, Room),
    process_flag(min_heap_size, Room).

room_for(Names) -> min(?ROOM_FOR_NAME * Names, max(?ROOM, ?ROOM_OF_MANY * Names)).

%% The same, and collects the garbage now, unless the room is there already.
-spec cleaned(Names :: non_neg_integer(), heap()) -> heap().
cleaned(Names, Heap) ->
    Before = room(Names),
    _ = Before < room_for(Names) andalso erlang:garbage_collect(),
    changed(Names, Heap).

%% Room for the garbage of some edits: a small table would leave room for one or two.
usual() ->
    _ = process_flag(min_heap_size, max(?USUAL, element(2, erlang:system_info(min_heap_size)))),
    _ = process_flag(min_bin_vheap_size, element(2, erlang:system_info(min_bin_vheap_size))).

%% Notes that rows have changed.
-spec changed(Rows :: non_neg_integer(), heap()) -> heap().
changed(Rows, Heap = #heap{changed = Changed}) ->
    Heap#heap{changed = Changed + Rows}.

%% Has the registry look soon whether it is quiet, if a quarter of this many names has changed.
-spec timed(Names :: non_neg_integer(), heap()) -> heap().
timed(Names, Heap = #heap{changed = Changed, is_timed = false}) when Changed > 0, 4 * Changed >= Names ->
    _ = erlang:send_after(quiet_for(Names), self(), {heal_registry, quiet, Changed}),
    Heap#heap{is_timed = true};
timed(_Names, Heap) ->
    Heap.

quiet_for(Names) -> ?QUIET + Names div ?NAMES_OF_QUIET.

%% Collects the garbage if no more rows have changed and the registry waits for nothing. That sizes the heap by what was in it, so that
%% a later tick collects again: it sizes the heap by what is left.
-spec quiet(Changed :: non_neg_integer(), IsIdle :: boolean(), Names :: non_neg_integer(), heap()) -> heap().
quiet(Changed, true, Names, #heap{changed = Changed}) ->
    usual(),
    collect(Names),
    new(0);
quiet(_Earlier, _IsIdle, _Names, Heap) ->
    Heap#heap{is_timed = false}.

%% Takes the room of an exchange back. Collects the garbage if the heap has grown and the registry waits for nothing: when no row has
%% changed for a while, or when the heap has more than edits leave.
-spec tick(IsIdle :: boolean(), Names :: non_neg_integer(), heap()) -> heap().
tick(IsIdle, Names, Heap = #heap{changed = Changed, words = Words, seen = Seen, since = Since}) ->
    usual(),
    Now = now_in_milliseconds(),
    Next = Heap#heap{seen = Changed, since = if Changed =:= Seen -> Since; true -> Now end},
    IsQuiet = Now - Next#heap.since >= quiet_for(Names),
    case words() of
        More when More > Words, IsIdle, IsQuiet orelse More > ?BUSY + ?BUSY_FOR_NAME * Names -> collect(Names), Next#heap{words = words()};
        _ -> Next
    end.

%% The first collection after one of all rows copies them once more, which no edit waits for where there are many.
collect(Names) ->
    true = erlang:garbage_collect(),
    Names < ?MANY orelse erlang:garbage_collect(self(), [{type, minor}]).

words() ->
    {total_heap_size, Words} = process_info(self(), total_heap_size),
    Words.

now_in_milliseconds() ->
    erlang:monotonic_time(millisecond).
