%% @private The ETS table of heal_registry: every process reads the names of its node there, and a registry that starts again finds
%% what it had.
%%
%% heal_keeper owns the table. Rows are written before the position that has them, and before anybody else hears of them. Meanwhile the
%% position is marked: a registry that is killed in between knows that its table is perhaps not the one of its position.
-module(heal_table).

-include("heal_replica.hrl").

-export([create/0, give/1, bequeath/1, rows/2, restoring/1, hide/1, ended/2, disown/1, disown/2, kept/2, keep/2, forget/1, keep_own/1]).
-export([changing/1, keep_position/3, keep_operation/1, keep_patience/1, patience/1, restore/1, met/0]).
-export([is_running/0, find/2, names/0, names/1, count/0, info/2, row/1, is_restoring/1]).

-define(ROWS, heal_registry).
%% A counter: the operation of the replica's position, which each edit changes, with a bit that is set while rows are written.
-define(OPERATION, {?MODULE, operation}).
-define(CHANGING, (1 bsl 63)).
%% How long a caller waits for the registry. Each call reads it, so it isn't in the table, which the registry writes meanwhile.
-define(PATIENCE, {?MODULE, call_timeout}).

%% A name. `ended' if its process has ended and its row is about to go; `restoring' if this node answers for the row, the replica lacks it,
%% and this node restores it. The other fields are those of the row, without what ETS would copy for each: extra bytes that are zero, a term
%% that is the name, and a home that is the node of the process, of which it has the incarnation.
-record(entry, {
    name :: heal:name() | atom(),
    pid :: pid() | {ended | restoring, pid() | atom()} | atom(),
    term :: same | {term, term()} | atom(),
    node :: 0..16#ffffffff | atom(),
    serial :: 0..16#ffffffff | atom(),
    stamp :: non_neg_integer() | atom(),
    weight :: non_neg_integer() | atom(),
    extra :: none | binary() | atom(),
    resolver :: heal:resolver() | atom(),
    home :: non_neg_integer() | heal_replica:life() | atom()
}).

-define(NOTHING, <<0:128>>).

%% What else outlives the registry: its position, its programs, a registration that its node answers for and the table lacks, a node that it
%% has met.
-record(kept, {key :: key() | {own | met, atom()}, value :: term() | '_'}).

-type key() :: atom() | {own, heal:name()} | {met, node()}.

%% ---- What outlives the registry ----

%% Creates the ETS table, unless a registry has inherited it. The calling process owns it. That of a process which is ending goes first.
-spec create() -> ok.
create() ->
    Registry = whereis(heal_registry),
    case ets:info(?ROWS, owner) of
        undefined -> created();
        Registry -> ok;
        _Ending -> timer:sleep(1), create()
    end.

created() ->
    ?ROWS = ets:new(?ROWS, [named_table, public, {keypos, #entry.name}, {read_concurrency, true}]),
    case persistent_term:get(?OPERATION, none) of
        none -> persistent_term:put(?OPERATION, atomics:new(1, [{signed, false}]));
        _ -> ok
    end.

%% Passes the ETS table of the calling process to another one, now or when the calling process ends.
-spec give(pid()) -> ok.
give(Owner) ->
    true = ets:give_away(?ROWS, Owner, given),
    ok.

%% Makes a process the heir of the ETS table.
-spec bequeath(pid()) -> ok.
bequeath(Heir) ->
    true = ets:setopts(?ROWS, {heir, Heir, inherited}),
    ok.

%% Replaces rows, all at once for readers. A row that goes is marked by the same write as what replaces it.
-spec rows(Put :: [{heal:name(), #row{}}], Drop :: [heal:name()]) -> ok.
rows([{Name, Row}], []) ->
    true = ets:insert(?ROWS, entry(Name, Row)),
    ok;
rows([], [Name]) ->
    true = ets:delete(?ROWS, Name),
    ok;
rows(Put, Drop) ->
    Gone = [#entry{name = Name, pid = none} || Name <- Drop],
    true = ets:insert(?ROWS, Gone ++ [entry(Name, Row) || {Name, Row} <- Put]),
    [ets:delete(?ROWS, Name) || Name <- Drop],
    ok.

entry(Name, #row{serial = Serial, stamp = Stamp, alike = {Node, Weight, Extra, Resolver}, pid = Pid, term = Term, home = Home}) ->
    #entry{
        name = Name,
        pid = Pid,
        term = if Term =:= Name -> same; true -> {term, Term} end,
        node = Node,
        serial = Serial,
        stamp = Stamp,
        weight = Weight,
        extra = if Extra =:= ?NOTHING -> none; true -> Extra end,
        resolver = Resolver,
        home = if element(1, Home) =:= node(Pid) -> element(2, Home); true -> Home end
    }.

%% Returns the row of an entry.
row_of(Entry = #entry{node = Node, serial = Serial, stamp = Stamp, weight = Weight, resolver = Resolver}) ->
    Extra = case Entry#entry.extra of none -> ?NOTHING; Bytes -> Bytes end,
    Pid = case Entry#entry.pid of {_, Of} -> Of; Of -> Of end,
    heal_row:of_values(Entry#entry.name, {Serial, Stamp, {Node, Weight, Extra, Resolver}}, Pid, term_of(Entry), home_of(Entry, Pid)).

term_of(#entry{name = Name, term = same}) -> Name;
term_of(#entry{term = {term, Term}}) -> Term.

home_of(#entry{home = Incarnation}, Pid) when is_integer(Incarnation) -> {node(Pid), Incarnation};
home_of(#entry{home = Home}, _Pid) -> Home.

%% Shows registrations that this node answers for and the replica lacks, and keeps them.
-spec restoring([{heal:name(), #row{}}]) -> ok.
restoring(Rows) ->
    ok = keep_own(Rows),
    true = ets:insert(?ROWS, [(entry(Name, Row))#entry{pid = {restoring, Pid}} || {Name, Row = #row{pid = Pid}} <- Rows]),
    ok.

%% Returns whether the row of a name is such a one.
-spec is_restoring(heal:name()) -> boolean().
is_restoring(Name) ->
    case ets:lookup(?ROWS, Name) of
        [#entry{pid = {restoring, _}}] -> true;
        _ -> false
    end.

%% The process of a name has ended.
-spec hide(heal:name()) -> ok.
hide(Name) ->
    case ets:lookup(?ROWS, Name) of
        [#entry{pid = Pid}] when is_pid(Pid) -> ets:update_element(?ROWS, Name, {#entry.pid, {ended, Pid}});
        _ -> false
    end,
    ok.

%% The process of this row has ended.
-spec ended(heal:name(), #row{}) -> ok.
ended(Name, Row = #row{pid = Pid}) ->
    true = ets:insert(?ROWS, (entry(Name, Row))#entry{pid = {ended, Pid}}),
    ok.

%% This node answers for a name no more.
-spec disown(heal:name()) -> ok.
disown(Name) ->
    true = ets:delete(?ROWS, {own, Name}),
    _ = is_restoring(Name) andalso ets:delete(?ROWS, Name),
    ok.

%% The same, unless this node answers for another registration of the name by now.
-spec disown(heal:name(), #row{}) -> ok.
disown(Name, Row) ->
    case ets:lookup(?ROWS, {own, Name}) of
        [#kept{value = Value}] -> heal_row:upgrade(Name, Value) =/= Row orelse ets:delete(?ROWS, {own, Name});
        [] -> true
    end,
    ok.

%% Keeps a value.
-spec keep(key(), Value :: term()) -> ok.
keep(Key, Value) ->
    true = ets:insert(?ROWS, #kept{key = Key, value = Value}),
    ok.

%% Keeps it no longer.
-spec forget(key()) -> ok.
forget(Key) ->
    true = ets:delete(?ROWS, Key),
    ok.

%% Keeps registrations that this node answers for.
-spec keep_own([{heal:name(), #row{}}]) -> ok.
keep_own(Rows) ->
    true = ets:insert(?ROWS, [#kept{key = {own, Name}, value = Row} || {Name, Row} <- Rows]),
    ok.

%% Returns what is kept under a key.
-spec kept(key(), Usual :: term()) -> term().
kept(Key, Usual) ->
    case ets:lookup(?ROWS, Key) of
        [#kept{value = Value}] -> Value;
        [] -> Usual
    end.

%% Returns the nodes that the registry has met.
-spec met() -> [node()].
met() ->
    ets:select(?ROWS, [{#kept{key = {met, '$1'}, value = '_'}, [], ['$1']}]).

%% Keeps how many milliseconds a caller waits for the registry.
-spec keep_patience(pos_integer()) -> ok.
keep_patience(Milliseconds) ->
    persistent_term:put(?PATIENCE, Milliseconds).

%% Returns it.
-spec patience(Usual :: pos_integer()) -> pos_integer().
patience(Usual) ->
    case persistent_term:get(?PATIENCE, none) of
        %% A registry that an earlier version has started keeps it in the table.
        none -> case is_running() of true -> kept(call_timeout, Usual); false -> Usual end;
        Milliseconds -> Milliseconds
    end.

%% Returns the settings with which a registry of this life goes on: its replica, the registrations that it answers for, and so on.
-spec restore(heal_replica:life()) -> map().
restore(Life) ->
    ok = heal_heap:expecting(ets:info(?ROWS, size)),
    true = ets:match_delete(?ROWS, #entry{pid = none, _ = '_'}),
    Entries = ets:select(?ROWS, [{#entry{pid = '$1', _ = '_'}, [{'orelse', {is_pid, '$1'}, {'=:=', {element, 1, '$1'}, ended}}], ['$_']}]),
    {Rows, _} = lists:mapfoldl(fun shared_row/2, #{}, Entries),
    Names = maps:from_list(Rows),
    Found = #{own => own(Life, Entries, Names), programs => kept(programs, #{}), greatest => kept(greatest, 0),
              problems => kept(reported, #{})},
    case kept(view, none) of
        none -> Found;
        {View, Led, Latest} ->
            Operation = atomics:get(persistent_term:get(?OPERATION), 1),
            At = {View, Operation band bnot ?CHANGING},
            Found#{replica => heal_replica:resume(Life, At, max(Led, kept(led, Led)), half(Names, Latest)),
                   is_exact => Operation band ?CHANGING =:= 0}
    end.

%% Marks the position, of this operation: until the next one is kept, the table may be that of either, or something in between.
-spec changing(Operation :: non_neg_integer()) -> ok.
changing(Operation) ->
    keep_operation(Operation bor ?CHANGING).

%% Keeps the position of the replica, the number of its latest view, and that of the exchange before.
-spec keep_position(heal_replica:position(), Led :: pos_integer(), Latest :: non_neg_integer()) -> ok.
keep_position({View, Operation}, Led, Latest) ->
    ok = changing(0),
    ok = keep(view, {View, Led, Latest}),
    keep_operation(Operation).

%% Keeps the operation of the position.
-spec keep_operation(non_neg_integer()) -> ok.
keep_operation(Operation) ->
    atomics:put(persistent_term:get(?OPERATION), 1, Operation).

shared_row(Entry = #entry{name = Name}, Shared) ->
    {Row, Next} = heal_row:share(row_of(Entry), Shared),
    {{Name, Row}, Next}.

%% The rows of this node's living processes, and what the table lacks or may have lacked.
own(Life, Entries, Names) ->
    Ended = [Name || #entry{name = Name, pid = {ended, _}} <- Entries],
    Shown = maps:filter(fun(_, #row{home = Home}) -> Home =:= Life end, maps:without(Ended, Names)),
    Missing = ets:select(?ROWS, [{#kept{key = {own, '$1'}, value = '$2'}, [], [{{'$1', '$2'}}]}]),
    maps:merge(Shown, maps:from_list([{Name, heal_row:upgrade(Name, Row)} || {Name, Row} <- Missing])).

half(Names, Latest) ->
    Programs = kept(programs, #{}),
    %% An earlier version didn't keep which of them the half had.
    #half{names = Names, programs = maps:with(kept(known, maps:keys(Programs)), Programs), latest = Latest}.

%% ---- Readers ----

%% Returns the process of a name, if it was registered as this term or as another writing of the same printable name.
-spec find(heal:name(), Term :: term()) -> {ok, pid()} | none | not_running.
find(Name, Term) ->
    try ets:lookup_element(?ROWS, Name, #entry.pid) of
        Pid when node(Pid) =:= node() -> case is_process_alive(Pid) of true -> found(Name, Term, Pid); false -> none end;
        Pid when is_pid(Pid) -> found(Name, Term, Pid);
        {restoring, Pid} -> case node(Pid) =/= node() orelse is_process_alive(Pid) of true -> found(Name, Term, Pid); false -> none end;
        _Ended -> none
    catch
        error:badarg -> case is_running() of true -> none; false -> not_running end
    end.

%% A digest may be the name of another term.
found(<<"$", _:22/binary>> = Name, Term, Pid) ->
    case ets:lookup(?ROWS, Name) of
        [#entry{term = {term, Of}}] when Of =:= Term -> {ok, Pid};
        [Entry] -> case heal_names:is_same(term_of(Entry), Term) of true -> {ok, Pid}; false -> none end;
        [] -> none
    end;
found(_Name, _Term, Pid) ->
    {ok, Pid}.

%% Returns whether the ETS table exists.
-spec is_running() -> boolean().
is_running() ->
    ets:whereis(?ROWS) =/= undefined.

%% Returns all names, each as the term that was registered.
-spec names() -> [term()].
names() ->
    ets:select(?ROWS, terms('$2', [{is_pid, '$2'}]) ++ terms({restoring, '_'}, [])).

%% What selects the terms of the entries with such a process.
terms(Pid, Guards) ->
    [{#entry{name = '$1', term = same, pid = Pid, _ = '_'}, Guards, ['$1']},
     {#entry{term = {term, '$1'}, pid = Pid, _ = '_'}, Guards, ['$1']}].

%% Returns the names of a process, unless it is of this node and has ended.
-spec names(pid()) -> [term()].
names(Pid) when node(Pid) =:= node() ->
    case is_process_alive(Pid) of
        true -> names_of(Pid);
        false -> []
    end;
names(Pid) ->
    names_of(Pid).

names_of(Pid) ->
    ets:select(?ROWS, terms(Pid, []) ++ terms({restoring, Pid}, [])).

%% Returns how many names there are.
-spec count() -> non_neg_integer().
count() ->
    ets:select_count(?ROWS, [{#entry{pid = '$1', _ = '_'}, [{is_pid, '$1'}], [true]}, {#entry{pid = {restoring, '_'}, _ = '_'}, [], [true]}]).

%% Returns what is registered under a name.
-spec info(heal:name(), Term :: term()) -> {ok, #row{}} | none | not_running.
info(Name, Term) ->
    case find(Name, Term) of
        {ok, Pid} ->
            case ets:lookup(?ROWS, Name) of
                [Entry = #entry{pid = Of}] when Of =:= Pid; Of =:= {restoring, Pid} -> {ok, row_of(Entry)};
                _ -> none
            end;
        Other ->
            Other
    end.

%% Returns what is registered under a name, unless its process has ended.
-spec row(heal:name()) -> {ok, #row{}} | none.
row(Name) ->
    case ets:lookup(?ROWS, Name) of
        [Entry = #entry{pid = Pid}] when is_pid(Pid); element(1, Pid) =:= restoring -> {ok, row_of(Entry)};
        _ -> none
    end.
