%% Replicas by the calls of libheal: entries, snapshots and logs on a disk.
-module(heal_replica_calls_tests).

-include_lib("eunit/include/eunit.hrl").

registration(Serial) ->
    #{owner => {1, Serial}, stamp => 1, resolver => notify}.

%% Follows the snapshot of a log and applies its entries, up to the last whole one.
restart(Replica, Log) ->
    case heal:log_front(Log) of
        {ok, {Kind, Size}} ->
            <<Message:Size/binary, Rest/binary>> = Log,
            ok = case Kind of snapshot -> heal:replica_follow(Replica, Message); entry -> heal:replica_apply(Replica, Message) end,
            restart(Replica, Rest);
        {ok, End} -> End
    end.

at(Replica) ->
    {ok, #{at := At}} = heal:replica_query(Replica),
    At.

backups_follow_test() ->
    {ok, Primary} = heal:replica(1, 1),
    {ok, Backup} = heal:replica(2, 1),
    {ok, Snapshot} = heal:replica_snapshot(Primary),
    ok = heal:replica_follow(Backup, Snapshot),
    {ok, Program} = heal:load(binary:decode_hex(<<"b7000000010000009500000000000000">>)),
    {ok, Id} = heal:program_id(Program),
    {ok, Uploads} = heal:replica_upload(Primary, Program),
    {ok, Registers} = heal:replica_register(Primary, <<"coin">>, (registration(1))#{resolver => {program, Id}}),
    ?assertMatch({error, {97, _}}, heal:replica_apply(Backup, Registers)),
    [?assertEqual(ok, heal:replica_apply(Backup, Entry)) || Entry <- [Uploads, Registers, Uploads]],
    ?assertEqual(at(Primary), at(Backup)),
    ?assertEqual(heal:replica_rows(Primary), heal:replica_rows(Backup)),
    ?assertMatch({error, {95, _}}, heal:replica_unregister(Backup, <<"coin">>)),
    ok = heal:replica_lead(Backup),
    {ok, _} = heal:replica_unregister(Backup, <<"coin">>),
    ?assertMatch({error, {31, _}}, heal:replica_whereis(Backup, <<"coin">>)),
    ?assertMatch({error, {96, _}}, heal:replica_apply(Backup, Registers)),
    ?assertMatch({ok, #{is_primary := true, names := 0, latest := none}}, heal:replica_query(Backup)).

%% A log that ends within an entry is read up to the one before it; another changed byte is noticed.
logs_test() ->
    {ok, Primary} = heal:replica(1, 1),
    {ok, Snapshot} = heal:replica_snapshot(Primary),
    Entries = [begin
                   {ok, Entry} = heal:replica_register(Primary, <<"n", (integer_to_binary(N))/binary>>, registration(N)),
                   Entry
               end || N <- lists:seq(1, 5)],
    Log = iolist_to_binary([Snapshot, Entries]),
    [begin
         {ok, Again} = heal:replica(1, Incarnation),
         ?assertEqual(End, restart(Again, binary:part(Log, 0, byte_size(Log) - Missing))),
         {ok, Rows} = heal:replica_rows(Again),
         ?assertEqual(Names, length(Rows))
     end || {Incarnation, Missing, End, Names} <- [{2, 0, empty, 5}, {3, 1, cut, 4}, {4, 30, cut, 4}]],
    {ok, Other} = heal:replica(2, 1),
    ok = heal:replica_follow(Other, Snapshot),
    [First | _] = Entries,
    Body = byte_size(First) - 1,
    <<Front:Body/binary, Last>> = First,
    ?assertMatch({error, {84, _}}, heal:replica_apply(Other, <<Front/binary, (Last bxor 1)>>)),
    <<Header:8/binary, Length:64/little, Rest/binary>> = First,
    ?assertMatch({error, {84, _}}, heal:log_front(<<Header/binary, (Length bxor (1 bsl 40)):64/little, Rest/binary>>)),
    ?assertMatch({error, {71, _}}, heal:log_front(<<"no log at all">>)).

%% Two primaries exchange, and one starts a view with the outcome.
exchange_test() ->
    Names = [{1, <<"db">>}, {2, <<"db">>}, {2, <<"web">>}],
    [One, Two] = Both = [begin
                             {ok, Replica} = heal:replica(Node, 1),
                             [{ok, _} = heal:replica_register(Replica, Name, registration(Of)) || {Of, Name} <- Names, Of =:= Node],
                             Replica
                         end || Node <- [1, 2]],
    Sides = [begin {ok, Side} = heal:replica_side(Replica, Id), Side end || {Replica, Id} <- lists:zip(Both, [a, b])],
    [{ok, _} = heal:replica_begin(Replica, 5) || Replica <- Both],
    From = at(One),
    Offers = [begin {ok, Offer} = heal:begin_exchange(Side, 5, 0, 0), Offer end || Side <- Sides],
    ?assertMatch({error, {33, _}}, heal:replica_change(One, From, hd(Sides))),
    [begin ok = heal:hear(Side, Offer), ok = heal:settle(Side) end || {Side, Offer} <- lists:zip(Sides, lists:reverse(Offers))],
    Lists = [begin {ok, List} = heal:close_list(Side), List end || Side <- Sides],
    [begin ok = heal:hear_list(Side, List), {ok, _} = heal:finish(Side) end || {Side, List} <- lists:zip(Sides, lists:reverse(Lists))],
    ok = heal:replica_change(One, From, hd(Sides)),
    ?assertMatch({error, {49, _}}, heal:replica_change(One, From, hd(Sides))),
    {ok, Snapshot} = heal:replica_snapshot(One),
    ok = heal:replica_follow(Two, Snapshot),
    ?assertEqual(at(One), at(Two)),
    ?assertMatch({ok, [{<<"db">>, _}, {<<"web">>, _}]}, heal:replica_rows(Two)),
    ?assertMatch({ok, #{latest := 5}}, heal:replica_query(Two)).
