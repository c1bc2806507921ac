%% Programs and numbers that outlive a restart of the whole cluster, and disks and folders that fail.
-module(heal_disk_tests).

-include_lib("eunit/include/eunit.hrl").

-export([start_here/1]).

-define(REGISTER, {heal_registry, register}).

program(Number) ->
    <<16#b7, 0, 0, 0, Number:32/little, 16#95, 0:56>>.

call(It, Function, Args) ->
    heal_cluster:call(It, heal_registry, Function, Args).

upload(It, Number) ->
    call(It, upload, [program(Number)]).

pid_on(Of) ->
    heal_cluster:call(Of, erlang, spawn, [heal_cluster, serve, [[]]]).

%% A node has a program if a registration may name it.
knows(It, Id) ->
    Name = {program, Id},
    case call(It, register, [Name, pid_on(It), #{resolver => {program, Id}}]) of
        ok -> ok = call(It, unregister_name, [Name]), true;
        {error, {41, _}} -> false
    end.

folder() ->
    Folder = filename:join(["out", "disks", lists:concat([os:getpid(), "_", erlang:unique_integer([positive])])]),
    ok = filelib:ensure_path(Folder),
    filename:absname(Folder).

file(Folder, It) ->
    filename:join(Folder, atom_to_list(heal_cluster:node_of(It)) ++ ".log").

start(Letter, Folder) ->
    It = heal_cluster:start(Letter),
    start_registry(It, Folder),
    It.

start_registry(It, Folder) ->
    heal_cluster:start_registry(It, any, #{dir => Folder, exchange_timeout => 1000}).

%% Starts a node again with what its disk has.
again(It, Folder) ->
    Again = heal_cluster:start_again(It),
    start_registry(Again, Folder),
    Again.

problem(It) ->
    maps:get(problems, heal_cluster:status(It)).

disks_test_() ->
    {inparallel, 3, [{atom_to_list(Name), {timeout, 240, Test}} || {Name, Test} <- [
        {cluster, fun cluster/0}, {torn, fun torn/0}, {damaged, fun damaged/0}, {not_a_folder, fun not_a_folder/0},
        {another_reason, fun another_reason/0}, {deleted, fun deleted/0}, {full, fun full/0}, {hanging, fun hanging/0}, {hanging_again, fun hanging_again/0},
        {one_folder, fun one_folder/0}, {replaced, fun replaced/0}, {writer_ends, fun writer_ends/0}, {binary, fun binary/0},
        {bad_setting, fun bad_setting/0}, {numbers, fun numbers/0}]]}.

%% All nodes of a cluster are killed at once, again and again, while callers upload on each of them.
cluster() ->
    Folder = folder(),
    Nodes = [start(Letter, Folder) || Letter <- [a, b, c]],
    rounds(3, Nodes, Folder, []).

rounds(0, Nodes, _Folder, _Known) ->
    [heal_cluster:stop(It) || It <- Nodes];
rounds(Round, Nodes, Folder, Known) ->
    heal_cluster:mesh(Nodes),
    heal_cluster:one_part(Nodes),
    [?assertEqual([], [Id || Id <- Known, not knows(It, Id)]) || It <- Nodes],
    Before = lists:max([maps:get(number, heal_cluster:status(It)) || It <- Nodes]),
    Owner = heal_cluster:own(hd(Nodes), ?REGISTER, name, #{}),
    ?assertEqual(Owner, call(hd(Nodes), whereis_name, [name])),
    Self = self(),
    [spawn_link(fun() -> uploads(It, Round * 1000 + N * 100, Self) end) || {It, N} <- lists:zip(Nodes, [1, 2, 3])],
    Acknowledged = acknowledged(10 + Round, []),
    Pids = [heal_cluster:call(It, os, getpid, []) || It <- Nodes],
    "" = os:cmd("kill -9 " ++ lists:append(lists:join(" ", Pids))),
    More = acknowledged(0, Acknowledged),
    [heal_cluster:stop(It) || It <- Nodes],
    Next = [again(It, Folder) || It <- Nodes],
    ?assertEqual([], lists:append([heal_cluster:table(It) || It <- Next])),
    After = lists:max([maps:get(number, heal_cluster:status(It)) || It <- Next]),
    ?assert(After >= Before),
    rounds(Round - 1, Next, Folder, More ++ Known).

%% Uploads until the node ends.
uploads(It, Number, To) ->
    case catch upload(It, Number) of
        {ok, Id} -> To ! {uploaded, Id}, uploads(It, Number + 1, To);
        _ -> ended
    end.

acknowledged(Least, Ids) ->
    receive
        {uploaded, Id} -> acknowledged(Least - 1, [Id | Ids])
    after case Least > 0 of true -> 30000; false -> 0 end ->
        Ids
    end.

%% A log that ends within an entry is read up to it, and goes on. So is one that ends in zeros, as a file system may leave them after a power
%% cut.
torn() ->
    Folder = folder(),
    A = start(a, Folder),
    {ok, One} = upload(A, 1),
    Before = filelib:file_size(file(Folder, A)),
    {ok, Two} = upload(A, 2),
    heal_cluster:kill_node(A),
    {ok, Log} = file:read_file(file(Folder, A)),
    Size = byte_size(Log),
    [begin
         ok = file:write_file(file(Folder, A), <<(binary:part(Log, 0, Kept))/binary, 0:(8 * Zeros)>>),
         B = again(A, Folder),
         ?assertEqual({true, Kept =:= Size}, {knows(B, One), knows(B, Two)}),
         ?assertEqual(#{}, problem(B)),
         ?assertMatch({ok, _}, upload(B, 3)),
         heal_cluster:kill_node(B),
         C = again(A, Folder),
         {ok, Three} = upload(C, 3),
         ?assertEqual({true, true}, {knows(C, One), knows(C, Three)}),
         heal_cluster:kill_node(C)
     end || {Kept, Zeros} <- [{Size - 1, 0}, {Size - 8, 0}, {Size - 20, 0}, {Size - 8, 8}, {Size - 20, 4096}, {Before + 9, 4096}, {Before, 8},
                              {Size, 4096}]].

%% A file that is no log, or is damaged, stays as it is. The registry goes on without it until it is moved away.
damaged() ->
    Folder = folder(),
    A = start(a, Folder),
    [{ok, One}, {ok, Two}] = [upload(A, N) || N <- [1, 2]],
    heal_cluster:kill_node(A),
    File = file(Folder, A),
    {ok, Log} = file:read_file(File),
    Middle = byte_size(Log) div 2,
    <<Front:Middle/binary, Byte, Rest/binary>> = Log,
    lists:foldl(fun({Bytes, Knows}, It) ->
        ok = file:write_file(File, Bytes),
        B = again(It, Folder),
        heal_logs:collect(B),
        Pid = heal_cluster:own(B, ?REGISTER, name, #{}),
        ?assertEqual({error, bad}, case upload(B, 3) of {error, {not_stored, {File, _}}} -> {error, bad}; Other -> Other end),
        ?assertMatch(#{dir := _}, problem(B)),
        ?assertEqual(Knows, [knows(B, Id) || Id <- [One, Two]]),
        ?assertEqual({ok, Bytes}, file:read_file(File)),
        ?assertEqual(Pid, call(B, whereis_name, [name])),
        ok = file:rename(File, File ++ ".away"),
        {ok, Four} = upload(B, 4),
        ?assertEqual(#{}, problem(B)),
        heal_cluster:kill_node(B),
        C = again(B, Folder),
        ?assertEqual([true | Knows], [knows(C, Id) || Id <- [Four, One, Two]]),
        heal_cluster:kill_node(C),
        C
    end, A, [{<<Front/binary, (Byte bxor 1), Rest/binary>>, [false, false]}, {<<"no log at all">>, [false, false]},
             {<<Log/binary, "this isn't a message">>, [true, true]}, {<<Log/binary, "this isn't a message", 0:64>>, [true, true]}]),
    ?assertEqual(ok, file:write_file(File ++ ".away", <<>>)).

%% The folder can't be made, or something else has the name of the file. A registry that starts has its names all the same.
not_a_folder() ->
    Folder = folder(),
    Plain = filename:join(Folder, "plain"),
    ok = file:write_file(Plain, <<"x">>),
    A = start(a, filename:join(Plain, "sub")),
    ?assertMatch({error, {not_stored, {_, {create, _}}}}, upload(A, 1)),
    ?assertMatch(#{dir := _}, problem(A)),
    Pid = heal_cluster:own(A, ?REGISTER, name, #{}),
    ?assertEqual([{name, Pid}], heal_cluster:table(A)),
    %% A program that isn't stored is known.
    {ok, Program} = heal:load(program(1)),
    {ok, Id} = heal:program_id(Program),
    ?assert(knows(A, Id)),
    %% The folder is made if it is missing, also later.
    ok = file:delete(Plain),
    ?assertMatch({ok, _}, upload(A, 1)),
    ?assertEqual(#{}, problem(A)),
    heal_cluster:stop(A),
    B = heal_cluster:start(b),
    ok = filelib:ensure_path(file(Folder, B)),
    start_registry(B, Folder),
    ?assertMatch({error, {not_stored, {_, not_a_log}}}, upload(B, 1)),
    heal_cluster:stop(B).

%% The disk can't be written for another reason than before: status/0 has the latest one.
another_reason() ->
    Folder = folder(),
    A = start(a, Folder),
    ok = file:del_dir_r(Folder),
    ok = file:write_file(Folder, <<"x">>),
    ?assertMatch({error, {not_stored, {_, {create, _}}}}, upload(A, 1)),
    ?assertMatch({_, _}, binary:match(map_get(dir, problem(A)), <<"its folder can't be created">>)),
    ok = file:delete(Folder),
    ok = filelib:ensure_path(file(Folder, A)),
    ?assertMatch({error, {not_stored, {_, not_a_log}}}, upload(A, 2)),
    ?assertMatch({_, _}, binary:match(map_get(dir, problem(A)), <<"it isn't a log">>)),
    heal_cluster:stop(A).

%% Somebody has deleted the file: an upload of a program that it had writes it again.
deleted() ->
    Folder = folder(),
    A = start(a, Folder),
    {ok, One} = upload(A, 1),
    {ok, Two} = upload(A, 2),
    ok = file:delete(file(Folder, A)),
    ?assertEqual({ok, One}, upload(A, 1)),
    heal_cluster:kill_node(A),
    B = again(A, Folder),
    ?assertEqual([true, true], [knows(B, Id) || Id <- [One, Two]]),
    heal_cluster:stop(B).

%% A disk that is full: the new file can't be written. The upload is refused, and no program is lost once there is room.
full() ->
    Folder = folder(),
    A = start(a, Folder),
    {ok, One} = upload(A, 1),
    File = file(Folder, A),
    New = filename:rootname(File) ++ ".new",
    ok = file:make_symlink("/dev/full", New),
    ok = file:rename(File, File ++ ".away"),
    ?assertMatch({error, {not_stored, {File, {write, enospc}}}}, upload(A, 2)),
    ?assertMatch(#{dir := _}, problem(A)),
    Pid = heal_cluster:own(A, ?REGISTER, name, #{}),
    ?assertEqual([{name, Pid}], heal_cluster:table(A)),
    %% It attempts to write by itself.
    ok = file:delete(New),
    heal_cluster:eventually(fun() -> problem(A) =:= #{} end),
    {ok, Two} = upload(A, 2),
    heal_cluster:kill_node(A),
    B = again(A, Folder),
    ?assertEqual([true, true], [knows(B, Id) || Id <- [One, Two]]),
    heal_cluster:stop(B).

%% Nodes may have one folder: each has a file.
one_folder() ->
    Folder = folder(),
    [A, B] = [start(Letter, Folder) || Letter <- [a, b]],
    {ok, One} = upload(A, 1),
    {ok, Two} = upload(B, 2),
    [heal_cluster:kill_node(It) || It <- [A, B]],
    [C, D] = [again(It, Folder) || It <- [A, B]],
    ?assertEqual({true, false, true, false}, {knows(C, One), knows(C, Two), knows(D, Two), knows(D, One)}),
    ?assertEqual([#{}, #{}], [problem(It) || It <- [C, D]]),
    [heal_cluster:stop(It) || It <- [C, D]].

%% Another virtual machine of the same name writes the file: this one doesn't any more.
replaced() ->
    Folder = folder(),
    A = start(a, Folder),
    {ok, _} = upload(A, 1),
    File = file(Folder, A),
    {ok, Log} = file:read_file(File),
    ok = file:write_file(File ++ ".other", Log),
    ok = file:rename(File ++ ".other", File),
    ?assertEqual({error, {not_stored, {File, replaced}}}, upload(A, 2)),
    ?assertEqual({error, {not_stored, {File, replaced}}}, upload(A, 3)),
    ?assertEqual({ok, Log}, file:read_file(File)),
    %% The registry starts again.
    heal_cluster:kill_registry(A),
    start_registry(A, Folder),
    {ok, Two} = upload(A, 2),
    heal_cluster:kill_node(A),
    B = again(A, Folder),
    ?assert(knows(B, Two)),
    heal_cluster:stop(B).

%% The process that writes is killed: it starts again, and uploads go on.
writer_ends() ->
    Folder = folder(),
    A = start(a, Folder),
    {ok, One} = upload(A, 1),
    Registry = heal_cluster:call(A, erlang, whereis, [heal_registry]),
    [begin
         heal_cluster:kill(A, heal_cluster:call(A, erlang, whereis, [heal_log])),
         heal_cluster:eventually(fun() -> heal_cluster:call(A, erlang, whereis, [heal_log]) =/= undefined end)
     end || _ <- [1, 2]],
    heal_cluster:eventually(fun() -> element(1, upload(A, 2)) =:= ok end),
    {ok, Two} = upload(A, 2),
    ?assertEqual(Registry, heal_cluster:call(A, erlang, whereis, [heal_registry])),
    ?assertEqual(#{}, problem(A)),
    heal_cluster:kill_node(A),
    B = again(A, Folder),
    ?assertEqual([true, true], [knows(B, Id) || Id <- [One, Two]]),
    heal_cluster:stop(B).

%% The folder is a binary.
binary() ->
    Folder = folder(),
    A = start(a, list_to_binary(Folder)),
    {ok, Id} = upload(A, 1),
    ?assertEqual(#{}, problem(A)),
    heal_cluster:kill_node(A),
    B = again(A, Folder),
    ?assert(knows(B, Id)),
    heal_cluster:stop(B).

bad_setting() ->
    A = heal_cluster:start(a),
    %% One follows the other, so that the table of one is being deleted when the next one starts.
    [?assertMatch({error, {{bad_setting, dir, Dir}, _}}, heal_cluster:call(A, ?MODULE, start_here, [#{nodes => any, dir => Dir}]))
     || _ <- lists:seq(1, 5), Dir <- [7, "", <<>>, x, {a}, [x | y]]],
    heal_cluster:stop(A).

%% Starts a registry that fails to start.
start_here(Options) ->
    process_flag(trap_exit, true),
    heal_registry:start_link(Options).

%% A disk that hangs delays an upload until its time is over, and nothing else; parts heal meanwhile.
hanging() ->
    Folder = folder(),
    %% An exchange waits for a second for the disk.
    Options = #{dir => Folder, exchange_timeout => 5000, edit_timeout => 1000},
    [A, B] = Nodes = [heal_cluster:start(Letter) || Letter <- [a, b]],
    [heal_cluster:start_registry(It, any, Options) || It <- Nodes],
    ok = heal_cluster:call(A, sys, suspend, [heal_log]),
    ?assertMatch({error, {timeout, unknown}}, upload(A, 1)),
    {Time, Owner} = timer:tc(fun() -> heal_cluster:own(A, ?REGISTER, name, #{}) end),
    ?assert(Time < 1000000),
    heal_cluster:connect(A, B),
    heal_cluster:one_part(Nodes),
    ?assertEqual(Owner, call(B, whereis_name, [name])),
    ok = heal_cluster:call(A, sys, resume, [heal_log]),
    {ok, Id} = upload(A, 1),
    heal_cluster:kill_node(A),
    Again = again(A, Folder),
    ?assert(knows(Again, Id)),
    [heal_cluster:stop(It) || It <- [Again, B]].

%% The disk hangs, and the registry starts again: the process that writes doesn't end, and no edit waits for it. Once it ends, uploads
%% go on.
hanging_again() ->
    Folder = folder(),
    A = start(a, Folder),
    {ok, One} = upload(A, 1),
    Writer = heal_cluster:call(A, erlang, whereis, [heal_log]),
    ok = heal_cluster:call(A, sys, suspend, [heal_log]),
    heal_cluster:kill_registry(A),
    start_registry(A, Folder),
    Slow = [Time || {Time, ok} <- edits(A, erlang:monotonic_time(millisecond) + 6000), Time > 800000],
    ?assert(length(Slow) < 2),
    heal_cluster:kill(A, Writer),
    heal_cluster:eventually(fun() -> element(1, upload(A, 2)) =:= ok end),
    {ok, Two} = upload(A, 2),
    heal_cluster:kill_node(A),
    B = again(A, Folder),
    ?assertEqual([true, true], [knows(B, Id) || Id <- [One, Two]]),
    heal_cluster:stop(B).

%% Makes edits until this time. Returns how long each took.
edits(It, Until) ->
    case erlang:monotonic_time(millisecond) < Until of
        true -> [timer:tc(fun() -> ok = call(It, unregister_name, [nobody]), timer:sleep(5) end) | edits(It, Until)];
        false -> []
    end.

%% The greatest number of an exchange is on the disk before the other node hears it.
numbers() ->
    Folder = folder(),
    [A, B] = [start(Letter, Folder) || Letter <- [a, b]],
    [begin
         heal_cluster:connect(A, B),
         heal_cluster:one_part([A, B]),
         heal_cluster:split(A, B),
         heal_cluster:apart(A, B)
     end || _ <- [1, 2, 3]],
    [#{number := Number}, #{number := Number}] = [heal_cluster:status(It) || It <- [A, B]],
    ?assert(Number >= 3),
    [heal_cluster:kill_node(It) || It <- [A, B]],
    [C, D] = [again(It, Folder) || It <- [A, B]],
    ?assertMatch([#{number := Number}, #{number := Number}], [heal_cluster:status(It) || It <- [C, D]]),
    heal_cluster:mesh([C, D]),
    heal_cluster:one_part([C, D]),
    Next = maps:get(number, heal_cluster:status(C)),
    ?assert(Next > Number),
    [heal_cluster:kill_node(It) || It <- [C, D]],
    %% The file is moved away while the node runs: the next one has the number too.
    E = again(A, Folder),
    ok = file:rename(file(Folder, E), file(Folder, E) ++ ".away"),
    {ok, _} = upload(E, 1),
    heal_cluster:kill_node(E),
    F = again(A, Folder),
    ?assertMatch(#{number := Next}, heal_cluster:status(F)),
    heal_cluster:stop(F).
