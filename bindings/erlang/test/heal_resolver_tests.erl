%% heal_resolver's calls on one node, and `global' with it on two real nodes.
-module(heal_resolver_tests).

-include_lib("eunit/include/eunit.hrl").

-export([code/1, quiet/0, loud/1, catch_log/2, log/2, own_size/0]).

-define(RESOLVERS, "../../resolvers").
-define(REGISTER, {heal_resolver, register}).

%% The code of a resolver in C, compiled here if there is a compiler for BPF, or else from the file of hex digits.
code(Name) ->
    Source = filename:join(?RESOLVERS, Name),
    Digits = case os:find_executable("clang-19") of
        false -> element(2, {ok, _} = file:read_file(Source ++ ".hex"));
        _ -> list_to_binary(os:cmd(filename:join(?RESOLVERS, "compile.sh") ++ " " ++ Source ++ ".c"))
    end,
    binary:decode_hex(string:trim(Digits)).

%% compile.sh finds record.h for a file in another folder. The compiler here only copies what it reads.
compile_elsewhere_test() ->
    Folder = filename:absname("out/a folder"),
    ok = filelib:ensure_path(Folder),
    Tools = [{"clang-19", "while [ $# -gt 0 ]; do case $1 in -I) dir=$2; shift;; -c) source=$2; shift;; -o) out=$2; shift;; "
                          "esac; shift; done; cc -E -I \"$dir\" \"$source\" > \"$out\""},
             {"llvm-objcopy-19", "cp \"$4\" \"$5\""}],
    [begin
         ok = file:write_file(filename:join(Folder, Tool), ["#!/bin/sh\n", Script, "\n"]),
         ok = file:change_mode(filename:join(Folder, Tool), 8#755)
     end || {Tool, Script} <- Tools],
    {ok, _} = file:copy(filename:join(?RESOLVERS, "later_stamp.c"), filename:join(Folder, "-later.c")),
    Compile = "PATH='" ++ Folder ++ "':$PATH " ++ filename:absname(filename:join(?RESOLVERS, "compile.sh")) ++ " ",
    [begin
         Text = binary:decode_hex(string:trim(list_to_binary(os:cmd("cd " ++ In ++ " && " ++ Compile ++ File)))),
         ?assertMatch([{_, _}, {_, _}], [binary:match(Text, Words) || Words <- [<<"struct registration {">>, <<"resolve(">>]])
     end || {In, File} <- [{"/", "'" ++ Folder ++ "/-later.c'"}, {"'" ++ Folder ++ "'", "-later.c"}]].

%% ---- Logs ----

%% Keeps the warnings that a test provokes from the console. `loud/1' ends that.
quiet() ->
    #{level := Level} = logger:get_primary_config(),
    ok = logger:set_primary_config(level, critical),
    Level.

loud(Level) ->
    ok = logger:set_primary_config(level, Level).

%% Sends what this node logs from a level on to a process, as `{logged, Text}'.
catch_log(Level, Pid) ->
    ok = logger:set_primary_config(level, Level),
    ok = logger:add_handler(?MODULE, ?MODULE, #{config => Pid}).

log(#{msg := {report, _}}, _Config) ->
    ok;
log(#{msg := {Format, Args}}, #{config := Pid}) ->
    Pid ! {logged, lists:flatten(io_lib:format(Format, Args))}.

%% ---- One node ----

not_started_test() ->
    ?assertEqual(undefined, whereis(heal_resolver)),
    Program = #{resolver => {program, <<1:256>>}},
    [?assertError({not_started, heal}, heal_resolver:register(db, self(), Options)) || Options <- [#{}, Program]],
    ?assertError({not_started, heal}, heal_resolver:upload(code("coin"))).

alone_test_() ->
    {setup,
        fun() ->
            Level = quiet(),
            {ok, _} = application:ensure_all_started(heal),
            application:set_env(kernel, global_multi_name_action, allow),
            Level
        end,
        fun(Level) ->
            ok = application:stop(heal),
            loud(Level)
        end,
        [{timeout, 240, Test} || Test <- [fun registered_twice/0, fun forgotten/0, fun by_global/0, fun via/0, fun uploads/0,
                                          fun unknown_program/0, fun bad_calls/0, fun crash/0, fun many_ends/0,
                                          fun no_answer/0, fun late_calls/0, fun logged/0]]}.

owner() ->
    spawn(heal_cluster, serve, [[]]).

known(Name, Pid) ->
    case heal_facts:known(Name, Pid) of
        {ok, #{resolver := Resolver}, _} -> Resolver;
        error -> error
    end.

size() ->
    Name = make_ref(),
    Pid = owner(),
    ok = heal_resolver:register(Name, Pid, #{}),
    {ok, _, #{size := Size}} = heal_facts:known(Name, Pid),
    exit(Pid, kill),
    heal_cluster:eventually(fun() -> known(Name, Pid) =:= error end),
    Size - 1.

%% The second call is refused, and the first one's registration stays.
registered_twice() ->
    Pid = owner(),
    ?assertEqual(ok, heal_resolver:register(twice, Pid, #{resolver => notify})),
    ?assertMatch({error, {30, _}}, heal_resolver:register(twice, Pid, #{resolver => exit})),
    ?assertEqual(no, heal_resolver:register_name(twice, Pid, #{})),
    ?assertMatch({error, {30, _}}, heal_resolver:register(twice, owner(), #{})),
    ?assertEqual(notify, known(twice, Pid)),
    ?assertEqual([], [Row || {Row = {twice, _, _}, _} <- heal_facts:calls()]),
    ok = heal_resolver:unregister_name(twice),
    ?assertEqual(error, known(twice, Pid)),
    ?assertEqual(ok, heal_resolver:register(twice, Pid, #{resolver => notify_all})),
    ?assertEqual(notify_all, known(twice, Pid)),
    exit(Pid, kill).

forgotten() ->
    Pid = owner(),
    ok = heal_resolver:register(forgotten, Pid, #{}),
    ?assertEqual(exit, known(forgotten, Pid)),
    exit(Pid, kill),
    heal_cluster:eventually(fun() -> known(forgotten, Pid) =:= error end),
    ?assertError(badarg, heal_resolver:register(forgotten, self(), #{stamp => x})),
    ?assertError(badarg, heal_resolver:register(forgotten, self(), none)).

%% Names that were unregistered or registered again with `global' itself don't count.
by_global() ->
    Before = size(),
    [One, Two] = [owner(), owner()],
    [ok = heal_resolver:register(Name, Pid, #{}) || {Name, Pid} <- [{given_up, One}, {given_away, Two}]],
    ?assertEqual(Before + 2, size()),
    global:unregister_name(given_up),
    global:re_register_name(given_away, self()),
    heal_resolver ! sweep,
    ?assertEqual(Before, size()),
    global:unregister_name(given_away).

via() ->
    Name = {via, heal_resolver, via},
    {ok, Pid} = gen_event:start(Name),
    ?assertEqual([Pid, Pid], [heal_resolver:whereis_name(via), global:whereis_name(via)]),
    ?assertEqual({error, {already_started, Pid}}, gen_event:start(Name)),
    ?assertEqual([], gen_event:which_handlers(Name)),
    ?assertEqual(Pid, heal_resolver:send(via, hello)),
    ok = gen_event:stop(Name),
    ?assertEqual(undefined, heal_resolver:whereis_name(via)),
    ?assertExit({badarg, {via, hello}}, heal_resolver:send(via, hello)).

uploads() ->
    {ok, Id} = heal_resolver:upload(code("later_stamp")),
    ?assertEqual(32, byte_size(Id)),
    Pid = owner(),
    ?assertEqual(yes, heal_resolver:register_name(uploads, Pid, #{resolver => {program, Id}})),
    Backward = <<16#0500ffff00000000:64, 16#9500000000000000:64>>,
    ?assertMatch({error, {10, <<"a backward jump at slot 0">>}}, heal_resolver:upload(Backward)),
    exit(Pid, kill).

unknown_program() ->
    Unknown = #{resolver => {program, <<1:256>>}},
    ?assertEqual({error, {41, heal:refusal_words(41)}}, heal_resolver:register(unknown, self(), Unknown)),
    ?assertEqual(no, heal_resolver:register_name(unknown, self(), Unknown)),
    ?assertEqual(undefined, heal_resolver:whereis_name(unknown)).

%% The server survives what it doesn't know, and what the caller refuses.
bad_calls() ->
    Server = whereis(heal_resolver),
    ?assertError(badarg, heal_resolver:upload("text")),
    ?assertError(badarg, heal_resolver:register(bad, not_a_pid, #{})),
    [?assertEqual({error, unknown_call}, gen_server:call(heal_resolver, Call))
     || Call <- [{upload, "text"}, {remember, bad, not_a_pid, #{}}, {remember, bad, self(), none}, {forget, bad, none}, what]],
    heal_resolver ! what,
    gen_server:cast(heal_resolver, what),
    ?assertEqual({error, unknown_call}, gen_server:call(heal_facts, what)),
    ?assertEqual(Server, whereis(heal_resolver)).

%% The server's next start knows registrations and programs, and notices the end of processes.
crash() ->
    {ok, Id} = heal_resolver:upload(code("coin")),
    Pids = [Live, Ends] = [owner(), owner()],
    [ok = heal_resolver:register({crash, Pid}, Pid, #{resolver => {program, Id}}) || Pid <- Pids],
    Server = whereis(heal_resolver),
    exit(Server, kill),
    exit(Ends, kill),
    heal_cluster:eventually(fun() -> not lists:member(whereis(heal_resolver), [undefined, Server]) end),
    ?assertEqual({program, Id}, known({crash, Live}, Live)),
    ?assertMatch({ok, _}, heal_facts:program(Id)),
    heal_cluster:eventually(fun() -> known({crash, Ends}, Ends) =:= error end),
    exit(Live, kill),
    heal_cluster:eventually(fun() -> known({crash, Live}, Live) =:= error end).

%% The time of an end doesn't grow with the number of processes.
many_ends() ->
    Pids = [owner() || _ <- lists:seq(1, 10000)],
    [{ok, _} = gen_server:call(heal_resolver, {remember, Pid, Pid, heal_names:options(#{})}) || Pid <- Pids],
    ?assertEqual(10000, length(heal_facts:calls())),
    {Time, ok} = timer:tc(fun() ->
        [exit(Pid, kill) || Pid <- Pids],
        heal_cluster:eventually(fun() -> heal_facts:calls() =:= [] end)
    end),
    ?assert(Time < 3000000).

%% A server that hangs gives an error.
no_answer() ->
    sys:suspend(heal_resolver),
    ?assertEqual({error, {no_answer, node()}}, heal_resolver:register(no_answer, self(), #{})),
    sys:resume(heal_resolver),
    ?assertEqual(undefined, heal_resolver:whereis_name(no_answer)).

%% A call whose caller doesn't end it counts after a while if the process has the name, but not if a later call has registered it.
late_calls() ->
    [Once, Again, Lost] = Pids = [owner(), owner(), owner()],
    [{ok, _} = gen_server:call(heal_resolver, {remember, Pid, Pid, heal_names:options(#{weight => 1})}) || Pid <- Pids],
    yes = global:register_name(Once, Once),
    ok = heal_resolver:register(Again, Again, #{weight => 2}),
    Rows = ets:tab2list(heal_resolver_calls),
    true = ets:delete_all_objects(heal_resolver_calls),
    true = ets:insert(heal_resolver_calls, [{Key, Registration, Since - 61000} || {Key, Registration, Since} <- Rows]),
    heal_resolver ! sweep,
    _ = sys:get_state(heal_resolver),
    ?assertEqual([], heal_facts:calls()),
    ?assertMatch([{ok, #{weight := 1}, _}, {ok, #{weight := 2}, _}, error], [heal_facts:known(Pid, Pid) || Pid <- Pids]),
    [exit(Pid, kill) || Pid <- [Once, Again, Lost]].

%% Verdicts and kills are logged as those of `global'.
logged() ->
    Level = quiet(),
    ok = logger:set_handler_config(default, level, notice),
    catch_log(info, self()),
    Pids = [owner(), owner()],
    [heal_facts:add(logged, Pid, heal_names:registration(1, heal_names:serial(), heal_names:options(#{}))) || Pid <- Pids],
    Kept = heal_resolver:resolve(logged, hd(Pids), lists:last(Pids)),
    [Lost] = Pids -- [Kept],
    Killed = lists:flatten(io_lib:format("heal: Name conflict terminating ~w", [{logged, Lost}])),
    [?assert(receive {logged, Text} -> string:find(Text, Expected) =/= nomatch end)
     || Expected <- ["heal_resolver: Name conflict {logged,", Killed]],
    ok = logger:remove_handler(?MODULE),
    ok = logger:set_handler_config(default, level, all),
    loud(Level).

%% ---- A node whose name changes ----

%% Distribution starts, stops and starts again while the application runs. Each time the node still has its registrations, with the number
%% of its name, and another node receives them.
renamed_test_() ->
    Args = ["-setcookie", "heal_tests", "-pa", filename:absname("ebin"), filename:absname("out"), "-kernel", "logger_level", "critical"],
    {setup,
        fun() ->
            Other = heal_cluster:start(a),
            {ok, Peer, nonode@nohost} = peer:start(#{connection => standard_io, args => Args, env => [{"ERL_EPMD_ADDRESS", "127.0.0.1"}]}),
            [Other, {Peer, nonode@nohost}]
        end,
        fun(Nodes) -> [heal_cluster:stop(It) || It <- Nodes] end,
        fun([Other, It]) -> {timeout, 120, fun() -> renamed(It, Other) end} end}.

renamed(It, Other) ->
    [One, Two] = [list_to_atom(lists:concat([Letter, "_heal_", os:getpid(), "@127.0.0.1"])) || Letter <- [y, z]],
    Numbers = #{nonode@nohost => 7, One => 8, Two => 9, heal_cluster:node_of(Other) => 10},
    [begin
         _ = heal_cluster:call(Each, application, load, [heal]),
         ok = heal_cluster:call(Each, application, set_env, [heal, node_numbers, Numbers]),
         {ok, _} = heal_cluster:call(Each, application, ensure_all_started, [heal])
     end || Each <- [It, Other]],
    [heal_cluster:own(It, ?REGISTER, Name, #{}) || Name <- [first, second, third]],
    has_own(It, 3, 7),
    [begin
         {ok, _} = heal_cluster:call(It, net_kernel, start, [[Name, longnames]]),
         has_own(It, 3, maps:get(Name, Numbers)),
         ok = heal_cluster:call(It, net_kernel, stop, []),
         has_own(It, 3, 7)
     end || Name <- [One, Two, One]],
    {ok, _} = heal_cluster:call(It, net_kernel, start, [[One, longnames]]),
    [heal_cluster:kill(It, heal_cluster:call(It, global, whereis_name, [Name])) || Name <- [first, second]],
    has_own(It, 1, 8),
    true = heal_cluster:call(It, erlang, set_cookie, [heal_tests]),
    true = heal_cluster:call(It, net_kernel, connect_node, [heal_cluster:node_of(Other)]),
    heal_cluster:eventually(fun() -> [third] =:= [Name || {Name, _} <- heal_cluster:call(Other, heal_facts, names_of, [One])] end).

%% Waits until a node has this many registrations of its processes, with this number.
has_own(It, Count, Number) ->
    Expected = {lists:duplicate(Count, Number), [Count]},
    heal_cluster:eventually(fun() -> heal_cluster:call(It, ?MODULE, own_size, []) =:= Expected end).

own_size() ->
    Rows = heal_facts:rows_of(node()),
    {[Number || {_, _, #{owner := {Number, _}}} <- Rows],
     lists:usort([Size || {Name, Pid, _} <- Rows, {ok, _, #{size := Size}} <- [heal_facts:known(Name, Pid)]])}.

%% ---- Two nodes ----

global_test_() ->
    {setup,
        fun() ->
            Nodes = [A, B] = [heal_cluster:start(Letter) || Letter <- [a, b]],
            [begin
                 ok = heal_cluster:call(It, application, load, [heal]),
                 Numbers = #{heal_cluster:node_of(A) => 1, heal_cluster:node_of(B) => 2},
                 ok = heal_cluster:call(It, application, set_env, [heal, node_numbers, Numbers]),
                 {ok, _} = heal_cluster:call(It, application, ensure_all_started, [heal])
             end || It <- Nodes],
            Nodes
        end,
        fun(Nodes) -> [heal_cluster:stop(It) || It <- Nodes] end,
        fun([A, B]) -> {timeout, 240, fun() -> global(A, B) end} end}.

%% Each node registers the names, and then they meet: `global' keeps the owner that the resolver chose, on both nodes.
global(A, B) ->
    %% Only A has the program until the nodes meet. Afterwards B has it too.
    {ok, Id} = heal_cluster:call(A, heal_resolver, upload, [code("later_stamp")]),
    Own = fun(It, Name, Stamp, Resolver) -> heal_cluster:own(It, ?REGISTER, Name, #{stamp => Stamp, resolver => Resolver}) end,
    [LosesB, KeepsB, KeepsA, LosesA] = [Own(It, Name, Stamp, case It of A -> {program, Id}; B -> exit end)
                                        || {It, Name, Stamp} <- [{A, of_b, 5}, {B, of_b, 9}, {A, of_a, 9}, {B, of_a, 5}]],
    [ExitA, ExitB] = [Own(It, exits, 1, exit) || It <- [A, B]],
    [AllA, AllB] = [Own(It, neither, 1, notify_all) || It <- [A, B]],
    OnlyB = Own(B, only, 1, exit),
    heal_cluster:connect(A, B),
    Where = fun(It) -> [heal_cluster:call(It, global, whereis_name, [Name]) || Name <- [of_b, of_a, neither, only, exits]] end,
    heal_cluster:eventually(fun() ->
        [OfB, OfA, Neither, Only, _] = Found = Where(A),
        {OfB, OfA, Neither, Only} =:= {KeepsB, KeepsA, undefined, OnlyB} andalso Found =:= Where(B)
    end),
    ?assertEqual([[{global_name_conflict, of_b}], [], [], [{global_name_conflict, of_a}]],
                 [heal_cluster:mail(It, Pid) || {It, Pid} <- [{A, LosesB}, {B, KeepsB}, {A, KeepsA}, {B, LosesA}]]),
    ?assertEqual([[{global_name_conflict, neither, AllB}], [{global_name_conflict, neither, AllA}]],
                 [heal_cluster:mail(It, Pid) || {It, Pid} <- [{A, AllA}, {B, AllB}]]),
    [Kept] = lists:nthtail(4, Where(A)),
    ?assert(lists:member(Kept, [ExitA, ExitB])),
    ?assertEqual([case Pid of Kept -> []; _ -> dead end || Pid <- [ExitA, ExitB]],
                 [heal_cluster:mail(It, Pid) || {It, Pid} <- [{A, ExitA}, {B, ExitB}]]),
    ?assertEqual({ok, code("later_stamp")}, heal_cluster:call(B, heal_facts, code, [Id])),
    ok = heal_cluster:call(A, heal_resolver, unregister_name, [of_a]),
    heal_cluster:eventually(fun() -> heal_cluster:call(B, global, whereis_name, [of_a]) =:= undefined end).
