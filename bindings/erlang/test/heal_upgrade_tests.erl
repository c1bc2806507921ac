%% Hot upgrades: new code of every module and of the NIF, and the state of an earlier version, in running clusters.
-module(heal_upgrade_tests).

-include_lib("eunit/include/eunit.hrl").
-include("../src/heal_part.hrl").

-export([load_here/1, take_over_here/1]).

-define(REGISTER, {heal_registry, register}).
%% The sizes of the records server, part, call and heap before the fields of later versions.
-define(SERVER, 13).
-define(PART, 38).
-define(CALL, 6).
-define(HEAP, 4).
%% Fields of the record server.
-define(PART_OF, 2).
-define(MONITORS_OF, 10).
-define(HEAP_OF, 11).

upgrades_test_() ->
    {inparallel, 2, [
        [heal_cluster:cluster(Count, #{}, fun modules/1) || Count <- heal_cluster:sizes()],
        [heal_cluster:cluster(Count, #{send => fun heal_faults:send/2}, fun states/1) || Count <- heal_cluster:sizes()]
    ]}.

registries(Nodes) ->
    [heal_cluster:call(It, erlang, whereis, [heal_registry]) || It <- Nodes].

%% Runs while callers on all nodes register and unregister names: no registry ends, and nothing that was acknowledged is lost.
under_load(Nodes, Test) ->
    Workers = [{It, heal_cluster:call(It, erlang, spawn, [heal_restart_tests, work, [Prefix, #{}]])}
               || {It, Prefix} <- lists:zip(Nodes, lists:sublist(["a", "b", "c", "d", "e"], length(Nodes)))],
    Test(),
    Kept = [maps:to_list(heal_cluster:call(It, heal_restart_tests, stop, [Pid])) || {It, Pid} <- Workers],
    Table = heal_cluster:one_part(Nodes),
    ?assert(length(Table) > 10),
    ?assertEqual([], lists:append(Kept) -- Table).

%% Every module is loaded twice on each node, so that the code that it began with is gone.
modules(Nodes) ->
    Before = registries(Nodes),
    Names = [{Name, heal_cluster:own(It, ?REGISTER, Name, #{})} || {It, Name} <- lists:zip(Nodes, lists:sublist([v, w, x, y, z], length(Nodes)))],
    under_load(Nodes, fun() ->
        Modules = [list_to_atom(filename:basename(File, ".beam")) || File <- filelib:wildcard("ebin/*.beam")],
        ?assert(length(Modules) > 20),
        [heal_cluster:call(It, ?MODULE, load_here, [Module]) || Module <- Modules, It <- Nodes, _ <- [1, 2]]
    end),
    ?assertEqual(Before, registries(Nodes)),
    ?assertEqual([], Names -- heal_cluster:one_part(Nodes)).

%% Waits for callers that run the code before. The processes of the registry don't.
load_here(Module) ->
    heal_cluster:eventually(fun() -> code:soft_purge(Module) end),
    {module, Module} = code:load_file(Module).

%% A registry takes over the state of the version before, also with calls that wait.
states(Nodes) ->
    Before = registries(Nodes),
    under_load(Nodes, fun() ->
        [begin
             [heal_cluster:call(It, ?MODULE, take_over_here, [Version]) || Version <- [earlier, last]],
             %% The new state does what it has to.
             Pid = heal_cluster:own(It, ?REGISTER, Name, #{}),
             ok = heal_cluster:call(It, heal_registry, set_resolver, [Name, notify]),
             ?assertEqual(Pid, heal_cluster:call(It, heal_registry, whereis_name, [Name]))
         end || {It, Name} <- lists:zip(Nodes, lists:sublist([v, w, x, y, z], length(Nodes)))]
    end),
    waiting(Nodes),
    ?assertEqual(Before, registries(Nodes)).

%% A call whose request the primary hasn't answered is answered after the upgrade.
waiting(Nodes) ->
    #{primary := Primary} = heal_cluster:status(hd(Nodes)),
    [Other | _] = [It || It <- Nodes, heal_cluster:node_of(It) =/= Primary],
    ok = heal_cluster:call(Other, heal_faults, plan, [{hold, request}]),
    Self = self(),
    spawn_link(fun() -> Self ! {waited, heal_cluster:own(Other, ?REGISTER, waits, #{})} end),
    heal_cluster:eventually(fun() -> heal_cluster:call(Other, heal_faults, held, []) =/= [] end),
    heal_cluster:call(Other, ?MODULE, take_over_here, [earlier]),
    ok = heal_cluster:call(Other, heal_faults, plan, [none]),
    heal_cluster:call(Other, heal_faults, release, []),
    receive {waited, Pid} -> ?assertEqual(Pid, heal_cluster:call(Other, heal_registry, whereis_name, [waits])) end.

%% Gives the registry the state that an earlier version had, or the last one, and the new version takes it over.
take_over_here(Version) ->
    ok = sys:suspend(heal_registry),
    _ = sys:replace_state(heal_registry, fun(State) -> case Version of earlier -> server(State); last -> last(State) end end),
    ok = sys:change_code(heal_registry, heal_server, undefined, []),
    ok = sys:resume(heal_registry).

%% The last version released all names of a process at once, and noted less of its heap. One before had no messages that wait for full
%% connections.
last(State) ->
    Fields = [{?PART_OF, cut(element(?PART_OF, State), #part.full - 1)}, {?HEAP_OF, cut(element(?HEAP_OF, State), ?HEAP)}],
    cut(with(Fields, State), tuple_size(State) - 1).

with(Fields, State) ->
    lists:foldl(fun({N, Value}, Sum) -> setelement(N, Sum, Value) end, State, Fields).

server(State) ->
    Part = #part{own = Own} = element(?PART_OF, State),
    Owned = maps:from_list([{monitor(process, Pid), {Name, heal_row:owner(Row)}} || {Name, Row = #row{pid = Pid}} <- maps:to_list(Own)]),
    Owners = maps:from_list([{Owner, {Monitor, Name, (map_get(Name, Own))#row.pid}} || {Monitor, {Name, Owner}} <- maps:to_list(Owned)]),
    cut(with([{?PART_OF, part(Part)}, {?MONITORS_OF, Owned}, {?HEAP_OF, Owners}], State), ?SERVER).

part(Part = #part{own = Own, replica = Replica, lost = Lost}) ->
    Earlier = maps:map(fun(Name, Row) -> {own, heal_row:sent(Row), maps:get(Name, Lost, none)} end, Own),
    calls(cut(Part#part{own = Earlier, replica = replica(Replica)}, ?PART)).

replica(Replica) ->
    {At, Half = #half{names = Names}} = heal_replica:snapshot(Replica),
    Rows = maps:map(fun(_, Row) -> heal_row:sent(Row) end, Names),
    {replica, heal_replica:life(Replica), At, heal_replica:led(Replica), Half#half{names = Rows}, heal_replica:limit(Replica)}.

%% Calls are somewhere in the fields of a part.
calls(Call = #call{edit = {register, Name, Row = #row{}}}) -> calls(Call#call{edit = {register, Name, heal_row:sent(Row)}});
calls(Call) when element(1, Call) =:= call -> cut(Call, ?CALL);
calls(Term) when element(1, Term) =:= part -> list_to_tuple([calls(Field) || Field <- tuple_to_list(Term)]);
calls({Node, Call}) when element(1, Call) =:= call -> {Node, calls(Call)};
calls(Calls) when is_map(Calls) -> maps:map(fun(_, Call) -> calls(Call) end, Calls);
calls([Call | Rest]) -> [calls(Call) | calls(Rest)];
calls(Term) -> Term.

cut(Record, Size) ->
    list_to_tuple(lists:sublist(tuple_to_list(Record), Size)).
