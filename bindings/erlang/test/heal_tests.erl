%% The calls of libheal by themselves.
-module(heal_tests).

-include_lib("eunit/include/eunit.hrl").

-define(LATER, "79126000000000007911380000000000b700000002000000ad21010000000000b7000000010000009500000000000000").

later() ->
    binary:decode_hex(<<?LATER>>).

registration(Node, Serial, Stamp, Resolver) ->
    #{owner => {Node, Serial}, stamp => Stamp, resolver => Resolver}.

full(Registration) ->
    maps:merge(#{weight => 0, extra => <<0:128>>}, Registration).

values(Registration) ->
    #{owner := {Node, Serial}, stamp := Stamp, weight := Weight, extra := Extra, resolver := Resolver} = full(Registration),
    {Serial, Stamp, {Node, Weight, Extra, Resolver}}.

side(Id, Rows) ->
    {ok, Side} = heal:side(Id),
    [?assertEqual(ok, heal:register(Side, Name, Registration)) || {Name, Registration} <- Rows],
    Side.

%% Lets both sides finish an exchange. Returns their outcomes.
healed(A, B, Number, GoneOnA) ->
    {ok, OfA} = heal:begin_exchange(A, Number, 4, 100),
    {ok, OfB} = heal:begin_exchange(B, Number, 4, 200),
    [?assertEqual(ok, Call) || Call <- [heal:hear(A, OfB), heal:hear(B, OfA), heal:settle(A), heal:settle(B)]],
    [?assertEqual(ok, heal:withdraw(A, Name)) || Name <- GoneOnA],
    {ok, ListA} = heal:close_list(A),
    {ok, ListB} = heal:close_list(B),
    ok = heal:hear_list(A, ListB),
    ok = heal:hear_list(B, ListA),
    {ok, OutcomeA} = heal:finish(A),
    {ok, OutcomeB} = heal:finish(B),
    {OutcomeA, OutcomeB}.

exchange_of_every_resolver_test() ->
    A = side(a, [{<<"exit">>, registration(1, 1, 5, exit)}, {<<"notify">>, registration(1, 2, 5, notify)},
                 {<<"all">>, registration(1, 3, 5, notify_all)}, {<<"dead">>, registration(1, 4, 5, exit)}]),
    B = side(b, [{<<"exit">>, registration(2, 1, 9, exit)}, {<<"notify">>, registration(2, 2, 9, notify)},
                 {<<"all">>, registration(2, 3, 9, exit)}, {<<"only">>, registration(2, 5, 9, exit)}]),
    {ok, Id} = heal:upload(A, later()),
    ok = heal:register(A, <<"program">>, registration(1, 6, 5, {program, Id})),
    ok = heal:register(B, <<"program">>, registration(2, 6, 9, exit)),
    {OfA, OfB} = healed(A, B, 1, [<<"dead">>]),
    {ok, Clashes} = heal:clashes(OfA),
    ?assertEqual({ok, Clashes}, heal:clashes(OfB)),
    ?assertEqual({ok, 4}, heal:merged(OfA)),
    %% The words are 4 and up in the order of names, and the lowest bit of a word chooses.
    ?assertEqual([{<<"all">>, neither, [{conflict_with, {1, 3}, {2, 3}}, {conflict_with, {2, 3}, {1, 3}}], 4},
                  {<<"exit">>, second, [{exit, {1, 1}}], 5},
                  {<<"notify">>, first, [{conflict, {2, 2}}], 6},
                  {<<"program">>, second, [], 7}],
                 [{Name, Verdict, Notices, Word} || #{name := Name, verdict := Verdict, notices := Notices, word := Word} <- Clashes]),
    Rulings = [{<<"all">>, {1, 3}, {2, 3}, a, neither, notify_all}, {<<"exit">>, {1, 1}, {2, 1}, a, second, exit},
               {<<"notify">>, {1, 2}, {2, 2}, a, first, notify}, {<<"program">>, {1, 6}, {2, 6}, a, second, program}],
    [?assertEqual({ok, Rulings}, heal:rulings(Of)) || Of <- [OfA, OfB]],
    ?assertEqual({ok, 4, [{<<"all">>, {1, 3}, first, neither, notify_all, none},
                          {<<"exit">>, {1, 1}, first, second, exit, values(registration(2, 1, 9, exit))},
                          {<<"program">>, {1, 6}, first, second, program, values(registration(2, 6, 9, exit))}]}, heal:losses(OfA, a)),
    ?assertEqual({ok, 4, [{<<"all">>, {2, 3}, second, neither, notify_all, none},
                          {<<"notify">>, {2, 2}, second, first, notify, values(registration(1, 2, 5, notify))}]}, heal:losses(OfB, b)),
    {ok, Rows} = heal:rows(A),
    ?assertEqual({ok, Rows}, heal:rows(B)),
    ?assertEqual([{<<"exit">>, full(registration(2, 1, 9, exit))}, {<<"notify">>, full(registration(1, 2, 5, notify))},
                  {<<"only">>, full(registration(2, 5, 9, exit))}, {<<"program">>, full(registration(2, 6, 9, exit))}], Rows),
    ?assertEqual({ok, 4}, heal:count(A)).

%% The second half may have the first registration, and an outcome no clash.
rulings_test() ->
    Row = registration(1, 1, 5, notify_all),
    {OfA, OfB} = healed(side(a, [{<<"x">>, registration(2, 1, 5, exit)}]), side(b, [{<<"x">>, Row}]), 1, []),
    [?assertEqual({ok, [{<<"x">>, {1, 1}, {2, 1}, b, neither, notify_all}]}, heal:rulings(Of)) || Of <- [OfA, OfB]],
    {OfNone, _} = healed(side(a, [{<<"x">>, Row}]), side(b, []), 1, []),
    ?assertEqual({ok, []}, heal:rulings(OfNone)),
    ?assertEqual({ok, 0, []}, heal:losses(OfNone, a)).

%% What each half loses where the second one has the first registration, and where the winner is withdrawn.
losses_test() ->
    First = (full(registration(1, 1, 5, exit)))#{weight := 6, extra := <<7:128>>},
    Second = registration(2, 1, 5, notify),
    Clash = fun(Gone) ->
        %% The words of the names are 4 and 5, and the lowest bit of a word chooses.
        Names = [<<"x">>, <<"y">>],
        healed(side(a, [{Name, Second} || Name <- Names]), side(b, [{Name, First} || Name <- Names]), 1, Gone)
    end,
    {OfA, OfB} = Clash([]),
    OfX = {<<"x">>, {2, 1}, second, first, exit, values(First)},
    OfY = {<<"y">>, {1, 1}, first, second, exit, values(Second)},
    ?assertEqual({ok, 2, [OfX]}, heal:losses(OfA, a)),
    ?assertEqual({ok, 2, [OfY]}, heal:losses(OfB, b)),
    {GoneA, GoneB} = Clash([<<"x">>, <<"y">>]),
    ?assertEqual({ok, 2, [OfX, {<<"y">>, {2, 1}, second, second, exit, none}]}, heal:losses(GoneA, a)),
    ?assertEqual({ok, 2, [setelement(6, OfY, none)]}, heal:losses(GoneB, b)).

%% Names that are registered in one call, up to the one that is refused.
register_all_test() ->
    Rows = [{integer_to_binary(N), full(registration(1, N, 1, notify))} || N <- lists:seq(1000, 1999)],
    Row = full(registration(2, 1, 1, exit)),
    Side = side(a, []),
    ?assertEqual(ok, heal:register_all(Side, [])),
    ?assertEqual(ok, heal:register_all(Side, lists:reverse(Rows))),
    ?assertEqual({ok, Rows}, heal:rows(Side)),
    ?assertMatch({error, {30, _}}, heal:register_all(Side, [{<<"x">>, Row}, hd(Rows), {<<"y">>, Row}])),
    ?assertMatch({error, {44, _}}, heal:register_all(Side, [{<<"a b">>, Row}, {<<"y">>, Row}])),
    ?assertMatch({error, {41, _}}, heal:register_all(Side, [{<<"y">>, Row#{resolver := {program, <<0:256>>}}}])),
    ?assertEqual({ok, Rows ++ [{<<"x">>, Row}]}, heal:rows(Side)),
    {ok, Small} = heal:side(b, 3),
    ?assertMatch({error, {32, _}}, heal:register_all(Small, Rows)),
    ?assertEqual({ok, lists:sublist(Rows, 3)}, heal:rows(Small)),
    {ok, _} = heal:begin_exchange(Side, 1, 1, 0),
    ?assertMatch({error, {33, _}}, heal:register_all(Side, [{<<"y">>, Row}])).

%% Rows without the names of their fields are registered and returned. They share what they have alike, and nothing else.
values_test() ->
    {ok, Id} = heal:upload(Side = side(a, []), later()),
    Alike = {1, 6, <<7:128>>, notify},
    Other = [{2, 6, <<7:128>>, notify}, {1, 9, <<7:128>>, notify}, {1, 6, <<8:128>>, notify}, {1, 6, <<7:128>>, exit},
             {1, 6, <<7:128>>, notify_all}, {1, 6, <<7:128>>, {program, Id}}],
    Rows = [{integer_to_binary(N), {N, 100 + N, Of}} || {N, Of} <- lists:enumerate([Alike, Alike] ++ Other ++ [Alike, Alike])],
    Names = [Name || {Name, _} <- Rows],
    ?assertEqual(ok, heal:register_all(Side, Rows)),
    [?assertEqual({ok, full(#{owner => {Node, Serial}, stamp => Stamp, weight => Weight, extra => Extra, resolver => Resolver})},
                  heal:whereis(Side, Name)) || {Name, {Serial, Stamp, {Node, Weight, Extra, Resolver}}} <- Rows],
    Found = fun(Asked) -> {ok, Has, Lacking} = heal:values(Side, Asked), {lists:sort(Has), lists:sort(Lacking)} end,
    ?assertEqual({lists:sort(Rows), []}, Found(Names)),
    ?assertEqual({[hd(Rows)], [<<"x">>, <<"y">>]}, Found([<<"x">>, <<"1">>, <<"y">>])),
    ?assertEqual({[], []}, Found([])),
    {ok, [{_, {_, _, One}}, {_, {_, _, Same}}], []} = heal:values(Side, [<<"1">>, <<"2">>]),
    ?assert(erts_debug:same(One, Same)),
    ?assertMatch({error, {41, _}}, heal:register_all(Side, [{<<"z">>, {1, 1, {1, 0, <<0:128>>, {program, <<0:256>>}}}}])),
    %% A name that is withdrawn isn't there.
    {ok, _} = heal:begin_exchange(Side, 1, 1, 0),
    ok = heal:withdraw(Side, <<"1">>),
    ?assertEqual({[], [<<"1">>]}, Found([<<"1">>])).

registration_keeps_its_fields_test() ->
    Registration = #{owner => {4294967295, 7}, stamp => 18446744073709551615, weight => 3, extra => <<"sixteen bytes ok">>,
                     resolver => notify_all},
    Side = side(a, [{<<"x">>, Registration}]),
    ?assertEqual({ok, Registration}, heal:whereis(Side, <<"x">>)),
    ?assertEqual({ok, [{<<"x">>, Registration}]}, heal:rows(Side)).

refusals_test() ->
    Row = registration(1, 1, 1, exit),
    Side = side(a, [{<<"x">>, Row}]),
    Expected = [{30, heal:register(Side, <<"x">>, Row)}, {31, heal:unregister(Side, <<"y">>)}, {31, heal:whereis(Side, <<"y">>)},
                {44, heal:register(Side, <<>>, Row)}, {44, heal:register(Side, <<"a b">>, Row)},
                {41, heal:register(Side, <<"y">>, registration(1, 2, 1, {program, <<0:256>>}))},
                {34, heal:settle(Side)}, {34, heal:finish(Side)}, {34, heal:abandon(Side)}, {34, heal:close_list(Side)},
                {34, heal:withdraw(Side, <<"x">>)}, {70, heal:hear(Side, <<>>)}, {70, heal:hear_list(Side, <<>>)},
                {3, heal:load(<<1, 2, 3>>)}, {1, heal:upload(Side, <<>>)}],
    [?assertMatch({Number, {error, {Number, _}}}, {Number, Answer}) || {Number, Answer} <- Expected],
    ?assertEqual({error, {30, <<"the name is already registered">>}}, heal:register(Side, <<"x">>, Row)),
    ?assertEqual({error, {10, <<"a backward jump at slot 0">>}}, heal:load(<<16#0500ffff00000000:64, 16#9500000000000000:64>>)),
    ?assertEqual({ok, [{<<"x">>, full(Row)}]}, heal:rows(Side)).

refusals_of_an_exchange_test() ->
    A = side(a, [{<<"x">>, registration(1, 1, 1, exit)}]),
    {ok, Offer} = heal:begin_exchange(A, 5, 1, 0),
    ?assertMatch({error, {33, _}}, heal:begin_exchange(A, 6, 1, 0)),
    ?assertMatch({error, {33, _}}, heal:register(A, <<"y">>, registration(1, 2, 1, exit))),
    ?assertMatch({error, {39, _}}, heal:settle(A)),
    ?assertMatch({error, {39, _}}, heal:finish(A)),
    ?assertMatch({error, {46, _}}, heal:hear(A, Offer)),
    ?assertEqual(ok, heal:withdraw(A, <<"x">>)),
    ?assertMatch({error, {47, _}}, heal:withdraw(A, <<"x">>)),
    ?assertEqual(ok, heal:abandon(A)),
    ?assertEqual({ok, []}, heal:rows(A)),
    ?assertMatch({error, {35, _}}, heal:begin_exchange(A, 5, 1, 0)).

words_test() ->
    ?assertEqual(<<"the table is full: 4,096 names, or the side's limit">>, heal:refusal_words(32)),
    ?assertEqual(<<"unknown refusal">>, heal:refusal_words(4294967295)).

program_test() ->
    {ok, Program} = heal:load(later()),
    {ok, Id} = heal:program_id(Program),
    ?assertEqual(32, byte_size(Id)),
    ?assertEqual({ok, Id}, heal:upload(side(a, []), later())),
    Facts = #{size => 1, uptime => 2},
    Judged = fun(Stamp) ->
        {ok, Record} = heal:record(<<"db">>, registration(1, 1, Stamp, exit), registration(2, 2, 9, exit), 77, Facts, Facts),
        {ok, Answer, Steps} = heal:judge(Program, Record),
        ?assert(Steps =< 6),
        Answer
    end,
    ?assertEqual([2, 1, 1], [Judged(Stamp) || Stamp <- [8, 9, 10]]).

record_layout_test() ->
    {ok, Record} = heal:record(<<"db">>, (registration(1, 2, 3, exit))#{weight => 4, extra => <<5:128/little>>},
                               registration(6, 7, 8, notify), 9, #{size => 10, uptime => 11}, #{size => 12, uptime => 13}),
    ?assertEqual(<<2:32/little, 0:32, "db", 0:240, 9:64/little, 1:32/little, 2:32/little, 3:64/little, 4:64/little, 5:128/little,
                   6:32/little, 7:32/little, 8:64/little, 0:64, 0:128, 10:64/little, 11:64/little, 12:64/little, 13:64/little>>, Record).

%% Terms of other types raise badarg and change nothing.
badarg_test() ->
    Side = side(a, []),
    {ok, Program} = heal:load(later()),
    {Outcome, _} = healed(side(a, []), side(b, []), 1, []),
    Row = registration(1, 1, 1, exit),
    {_, _, Alike} = values(Row),
    Calls = [{load, [x]}, {judge, [Program, <<0:8>>]}, {judge, [Side, <<0:1280>>]}, {judge, [make_ref(), <<0:1280>>]}, {side, [c]},
             {count, [Program]}, {register, [Side, x, Row]}, {register, [Side, <<"x">>, []]},
             {register, [Side, <<"x">>, maps:remove(owner, Row)]}, {register, [Side, <<"x">>, maps:remove(stamp, Row)]},
             {register, [Side, <<"x">>, Row#{owner := {1}}]}, {register, [Side, <<"x">>, Row#{owner := {-1, 1}}]},
             {register, [Side, <<"x">>, Row#{stamp := 1 bsl 64}]}, {register, [Side, <<"x">>, Row#{extra => <<1>>}]},
             {register, [Side, <<"x">>, Row#{resolver := later}]}, {register, [Side, <<"x">>, Row#{resolver := {program, <<1>>}}]},
             {begin_exchange, [Side, -1, 0, 0]}, {settle, [x]}, {hear, [Side, "x"]},
             {register_all, [Side, x]}, {register_all, [Program, []]}, {register_all, [Side, [{<<"x">>, Row} | x]]},
             {register_all, [Side, [{<<"x">>, Row}, x]]}, {register_all, [Side, [{<<"x">>, Row}, {<<"y">>}]]},
             {register_all, [Side, [{<<"x">>, Row}, {<<"y">>, Row, Row}]]}, {register_all, [Side, [{<<"x">>, Row}, {y, Row}]]},
             {register_all, [Side, [{<<"x">>, Row}, {<<"y">>, maps:remove(owner, Row)}]]},
             {register_all, [Side, [{<<"x">>, Row}, {<<"y">>, Row#{resolver => {program, <<1>>}}}]]},
             {rulings, [Side]}, {rulings, [Program]}, {rulings, [x]}, {rulings, [make_ref()]},
             {losses, [Side, a]}, {losses, [x, a]}, {losses, [Outcome, c]},
             {values, [Side, x]}, {values, [Program, []]}, {values, [Side, [<<"x">> | <<"y">>]]}, {values, [Side, [x]]},
             {refusal_words, [-1]}]
        ++ [{register_all, [Side, [{<<"x">>, values(Row)}, {<<"y">>, Values}]]}
            || Values <- [x, {}, {1, 1}, {1, 1, x}, {1, 1, Alike, 1}, {-1, 1, Alike}, {1 bsl 32, 1, Alike}, {1, -1, Alike}, {1, 1 bsl 64, Alike}]
                ++ [{1, 1, Other} || Other <- [{}, {1, 0, <<0:128>>}, {x, 0, <<0:128>>, exit}, {1, x, <<0:128>>, exit}, {1, 0, <<0:120>>, exit},
                                               {1, 0, x, exit}, {1, 0, <<0:128>>, later}, {1, 0, <<0:128>>, {program, <<0:248>>}}]]],
    [?assertError(badarg, apply(heal, Function, Args)) || {Function, Args} <- Calls],
    ?assertEqual({ok, 0}, heal:count(Side)).

%% Every byte of an offer that is changed gives a refusal, or an offer that is heard.
hostile_bytes_test() ->
    {ok, Id} = heal:upload(A = side(a, []), later()),
    ok = heal:register(A, <<"x">>, registration(1, 1, 1, {program, Id})),
    {ok, Offer} = heal:begin_exchange(A, 1, 1, 0),
    {ok, List} = heal:close_list(A),
    B = side(b, []),
    {ok, _} = heal:begin_exchange(B, 1, 1, 0),
    Known = [ok | lists:seq(30, 48)] ++ lists:seq(70, 83),
    Number = fun(ok) -> ok; ({error, {N, Words}}) when byte_size(Words) > 0 -> N end,
    [?assert(lists:member(Number(Hear(B, changed(Bytes, At, Value))), Known))
     || {Bytes, Hear} <- [{Offer, fun heal:hear/2}, {List, fun heal:hear_list/2}], At <- lists:seq(0, byte_size(Bytes) - 1),
        Value <- [0, 1, 127, 128, 255]],
    [?assertMatch({error, {70, _}}, heal:hear(B, binary:part(Offer, 0, Len))) || Len <- lists:seq(0, byte_size(Offer) - 1)],
    ?assertEqual({ok, 0}, heal:count(B)).

changed(Bytes, At, Value) ->
    <<Before:At/binary, _, After/binary>> = Bytes,
    <<Before/binary, Value, After/binary>>.

%% Processes that share a side take turns.
shared_side_test_() ->
    {timeout, 120, fun() ->
        {ok, Side} = heal:side(a),
        Self = self(),
        Register = fun(Node) ->
            [ok = heal:register(Side, integer_to_binary(Node * 1000 + N), registration(Node, N, 1, exit)) || N <- lists:seq(1, 100)],
            Self ! {done, Node}
        end,
        Look = fun() -> [{ok, _} = heal:rows(Side) || _ <- lists:seq(1, 50)], Self ! looked end,
        [spawn_link(fun() -> Register(Node) end) || Node <- lists:seq(1, 8)],
        [spawn_link(Look) || _ <- lists:seq(1, 2)],
        [receive {done, Node} -> ok end || Node <- lists:seq(1, 8)],
        [receive looked -> ok end || _ <- lists:seq(1, 2)],
        ?assertEqual({ok, 800}, heal:count(Side))
    end}.

%% Eight processes judge with one program and read one outcome, again and again for two seconds.
readers_share_test_() ->
    {timeout, 60, fun() ->
        {ok, Program} = heal:load(later()),
        {ok, Id} = heal:program_id(Program),
        A = side(a, [{<<"x">>, registration(1, 1, 1, exit)}]),
        B = side(b, [{<<"x">>, registration(2, 1, 1, exit)}]),
        {Outcome, _} = healed(A, B, 1, []),
        {ok, Clashes} = heal:clashes(Outcome),
        End = erlang:monotonic_time(millisecond) + 2000,
        Self = self(),
        Read = fun Read() ->
            {ok, 1, 6} = heal:judge(Program, <<0:1280>>),
            {ok, Id} = heal:program_id(Program),
            {{ok, 1}, {ok, Clashes}} = {heal:merged(Outcome), heal:clashes(Outcome)},
            case erlang:monotonic_time(millisecond) < End of
                true -> Read();
                false -> Self ! read
            end
        end,
        [spawn_link(Read) || _ <- lists:seq(1, 8)],
        [receive read -> ok end || _ <- lists:seq(1, 8)]
    end}.

%% Processes look a name up as often as they can, on a side that is new to all of them.
lookups_share_test_() ->
    {timeout, 60, fun() ->
        Self = self(),
        Look = fun(Side) -> [{ok, _} = heal:whereis(Side, <<"x">>) || _ <- lists:seq(1, 50000)], Self ! looked end,
        [begin
             Side = side(a, [{<<"x">>, registration(1, 1, 1, exit)}]),
             [spawn_link(fun() -> Look(Side) end) || _ <- lists:seq(1, 3)],
             [receive looked -> ok end || _ <- lists:seq(1, 3)]
         end || _ <- lists:seq(1, 5)]
    end}.

%% The module is loaded again, unchanged, while processes make calls.
loaded_again_test_() ->
    {timeout, 60, fun() ->
        Side = side(a, [{<<"x">>, registration(1, 1, 1, exit)}]),
        Rounds = counters:new(1, []),
        Self = self(),
        Readers = [spawn_link(fun() -> read_rows(Side, Rounds, Self) end) || _ <- lists:seq(1, 3)],
        [begin
             Before = counters:get(Rounds, 1),
             heal_cluster:eventually(fun() -> counters:get(Rounds, 1) > Before + 10 andalso code:soft_purge(heal) end),
             ?assertEqual({module, heal}, code:load_file(heal))
         end || _ <- lists:seq(1, 30)],
        [begin Pid ! stop, receive {stopped, Pid} -> ok end end || Pid <- Readers]
    end}.

%% A side with this many names.
big_side(Count) ->
    side(a, [{integer_to_binary(N), registration(1, N, 1, exit)} || N <- lists:seq(1, Count)]).

%% Calls that wait for a side occupy no scheduler: while a long call runs on it and more calls wait than there are schedulers, a call on
%% another side is answered. On a busy machine this process may be the one that waits, so one attempt has to show it.
waiting_calls_test_() ->
    {timeout, 240, fun() -> ?assert(lists:any(fun(_) -> is_answered_meanwhile() end, lists:seq(1, 20))) end}.

is_answered_meanwhile() ->
    Other = side(b, []),
    {ok, Side} = heal:side(a, 200000),
    Rows = [{integer_to_binary(N), registration(1, N, 1, exit)} || N <- lists:seq(1, 200000)],
    Counts = counters:new(2, []),
    Calls = 10 * erlang:system_info(dirty_cpu_schedulers_online),
    Long = counted(fun() -> heal:register_all(Side, Rows) end, Counts),
    Waiting = [counted(fun() -> heal:forget(Side, <<0:256>>) end, Counts) || _ <- lists:seq(1, Calls)],
    heal_cluster:eventually(fun() -> counters:get(Counts, 1) =:= Calls + 1 end),
    ?assertEqual({ok, []}, heal:rows(Other)),
    Ended = counters:get(Counts, 2),
    ?assertEqual(ok, answer(Long)),
    [?assertMatch({error, {41, _}}, answer(Pid)) || Pid <- Waiting],
    Ended =:= 0.

%% Makes a call. Counts the calls that begin, and those that have ended.
counted(Call, Counts) ->
    Self = self(),
    spawn_link(fun() ->
        counters:add(Counts, 1, 1),
        Answer = Call(),
        counters:add(Counts, 2, 1),
        Self ! {self(), Answer}
    end).

answer(Pid) ->
    receive {Pid, Answer} -> Answer end.

%% Processes that read a side again and again leave one that changes it a turn, after at most a few rounds of theirs.
turns_test_() ->
    {timeout, 240, fun() ->
        Side = big_side(4000),
        Self = self(),
        Rounds = counters:new(1, []),
        Busy = [spawn_link(fun() -> read_rows(Side, Rounds, Self) end) || _ <- lists:seq(1, 4)],
        Served = [begin
             Before = counters:get(Rounds, 1),
             heal_cluster:eventually(fun() -> counters:get(Rounds, 1) > Before end),
             ?assertEqual(ok, heal:renew(Side)),
             counters:get(Rounds, 1) - Before
         end || _ <- lists:seq(1, 10)],
        %% On a busy machine this process may be the one that waits.
        ?assert(lists:nth(5, lists:sort(Served)) < 50),
        [begin Pid ! stop, receive {stopped, Pid} -> ok end end || Pid <- Busy]
    end}.

read_rows(Side, Rounds, From) ->
    receive
        stop -> From ! {stopped, self()}
    after 0 ->
        {ok, _} = heal:rows(Side),
        counters:add(Rounds, 1, 1),
        read_rows(Side, Rounds, From)
    end.

%% A process that was waiting for its turn and is dead doesn't keep the others away.
dead_caller_test() ->
    Side = big_side(4000),
    [begin
         Callers = [spawn(fun() -> Call(Side) end) || Call <- [fun heal:renew/1, fun heal:rows/1, fun heal:renew/1, fun heal:rows/1]],
         [exit(Caller, kill) || Caller <- Callers]
     end || _ <- lists:seq(1, 10)],
    ?assertEqual(ok, heal:renew(Side)),
    ?assertEqual({ok, 4000}, heal:count(Side)).

%% A new version of the module goes on with the programs, sides and outcomes of the old one.
upgrade_test() ->
    {ok, Program} = heal:load(later()),
    {ok, Id} = heal:program_id(Program),
    A = side(a, [{<<"x">>, registration(1, 1, 1, exit)}]),
    B = side(b, [{<<"x">>, registration(2, 1, 1, exit)}]),
    {Outcome, _} = healed(side(a, []), side(b, []), 1, []),
    [begin
         code:purge(heal),
         ?assertEqual({module, heal}, code:load_file(heal)),
         ?assertEqual({ok, Id}, heal:program_id(Program)),
         ?assertEqual({ok, 0}, heal:merged(Outcome)),
         ?assertMatch({ok, #{owner := {1, 1}}}, heal:whereis(A, <<"x">>)),
         ?assertEqual({ok, 0}, heal:count(side(a, [])))
     end || _ <- [1, 2, 3]],
    {OfA, OfB} = healed(A, B, 1, []),
    ?assertMatch({ok, [#{name := <<"x">>}]}, heal:clashes(OfA)),
    ?assertEqual(heal:clashes(OfA), heal:clashes(OfB)).

%% Sides, programs and outcomes that nobody refers to are freed.
freed_test_() ->
    {timeout, 240, fun() ->
        Rows = [{integer_to_binary(N), registration(1, N, 1, exit)} || N <- lists:seq(1, 500)],
        Round = fun() ->
            {Pid, Monitor} = spawn_monitor(fun() ->
                {_, _} = healed(side(a, Rows), side(b, Rows), 1, []),
                [{ok, _} = heal:load(later()) || _ <- lists:seq(1, 100)]
            end),
            receive {'DOWN', Monitor, process, Pid, Reason} -> ?assertEqual(normal, Reason) end
        end,
        [Round() || _ <- lists:seq(1, 40)],
        Before = resident(),
        [Round() || _ <- lists:seq(1, 200)],
        ?assert(resident() - Before < 20000)
    end}.

%% The resident memory of this process in KiB.
resident() ->
    {ok, Status} = file:read_file("/proc/self/status"),
    {match, [Number]} = re:run(Status, "VmRSS:\\s+(\\d+)", [{capture, all_but_first, binary}]),
    binary_to_integer(Number).

%% A journal is renewed with the same names and the same greatest number.
renewed_test() ->
    A = side(a, [{<<"x">>, registration(1, 1, 1, exit)}]),
    [begin
         ok = heal:register(A, <<"y">>, registration(1, 2, 1, exit)),
         ok = heal:unregister(A, <<"y">>)
     end || _ <- lists:seq(1, 100)],
    {ok, _} = heal:begin_exchange(A, 9, 1, 1),
    ?assertMatch({error, {33, _}}, heal:renew(A)),
    ok = heal:abandon(A),
    {ok, Events} = heal:events(A),
    ?assert(Events > 200),
    ok = heal:renew(A),
    {ok, Fewer} = heal:events(A),
    ?assert(Fewer =< 3),
    ?assertMatch({error, {35, _}}, heal:begin_exchange(A, 9, 1, 1)),
    ?assertMatch({ok, [{<<"x">>, _}]}, heal:rows(A)).

%% A side gives up an open exchange, without the names that it withdrew, and an idle side only starts a fresh journal.
given_up_test() ->
    A = side(a, [{Name, registration(1, N, 1, exit)} || {N, Name} <- [{1, <<"x">>}, {2, <<"y">>}]]),
    {ok, _} = heal:begin_exchange(A, 9, 1, 1),
    ok = heal:withdraw(A, <<"x">>),
    ?assertEqual(ok, heal:give_up(A)),
    ?assertMatch({error, {34, _}}, heal:abandon(A)),
    ?assertMatch({ok, [{<<"y">>, _}]}, heal:rows(A)),
    ?assertEqual({ok, 3}, heal:events(A)),
    ?assertEqual(ok, heal:give_up(A)),
    ?assertMatch({error, {35, _}}, heal:begin_exchange(A, 9, 1, 1)).

limit_test() ->
    {ok, Side} = heal:side(a, 2),
    [?assertEqual(Answer, heal:register(Side, Name, registration(1, Serial, 1, exit)))
     || {Name, Serial, Answer} <- [{<<"x">>, 1, ok}, {<<"y">>, 2, ok}]],
    ?assertMatch({error, {32, _}}, heal:register(Side, <<"z">>, registration(1, 3, 1, exit))),
    [?assertMatch({error, {92, _}}, heal:side(b, Names)) || Names <- [0, 1048577]],
    ?assertError(badarg, heal:side(b, -1)).

kept_programs_test() ->
    Side = side(a, []),
    {ok, Id} = heal:upload(Side, later()),
    ?assertEqual({ok, [Id]}, heal:programs(Side)),
    ?assertEqual({ok, later()}, heal:code(Side, Id)),
    ok = heal:register(Side, <<"db">>, registration(1, 1, 1, {program, Id})),
    ?assertMatch({error, {94, _}}, heal:forget(Side, Id)),
    ok = heal:unregister(Side, <<"db">>),
    ?assertEqual(ok, heal:forget(Side, Id)),
    ?assertEqual({ok, []}, heal:programs(Side)),
    ?assertMatch({error, {41, _}}, heal:code(Side, Id)),
    ?assertError(badarg, heal:code(Side, <<1>>)).

%% What a side knows at each step, and what the first bytes of its messages show.
query_test() ->
    A = side(a, [{<<"db">>, registration(1, 1, 1, notify)}]),
    B = side(b, [{<<"db">>, registration(2, 1, 1, notify)}]),
    Knows = fun(Open, Missing, Withdrawn) ->
        Latest = case Open of 0 -> none; _ -> 7 end,
        {ok, #{side := a, open := Found, latest := Latest, missing := Missing, withdrawn := Withdrawn}} = heal:query(A),
        ?assertEqual(case Open of 7 -> 7; _ -> none end, Found)
    end,
    Knows(0, none, []),
    {ok, OfA} = heal:begin_exchange(A, 7, 4, 100),
    {ok, OfB} = heal:begin_exchange(B, 7, 4, 100),
    ?assertEqual({ok, #{kind => offer, side => a, number => 7, seed => 4}}, heal:peek(OfA)),
    Knows(7, offer, []),
    ok = heal:hear(A, OfB),
    Knows(7, {ruling, 0}, []),
    ok = heal:settle(A),
    ok = heal:withdraw(A, <<"db">>),
    Knows(7, own_list, [<<"db">>]),
    {ok, ListA} = heal:close_list(A),
    ?assertEqual({ok, #{kind => list, side => a, number => 7, seed => none}}, heal:peek(ListA)),
    ?assertMatch({error, {70, _}}, heal:peek(binary:part(ListA, 0, 16))),
    Knows(7, list, [<<"db">>]),
    ok = heal:hear(B, OfA),
    {ok, ListB} = heal:close_list(B),
    ok = heal:hear_list(A, ListB),
    Knows(7, nothing, [<<"db">>]),
    {ok, Outcome} = heal:finish(A),
    ?assertEqual({ok, 7}, heal:number(Outcome)),
    Knows(done, none, []).

%% A message that isn't of the open exchange is refused by its first bytes.
head_first_test() ->
    A = side(a, []),
    B = side(b, [{<<"db">>, registration(2, 1, 1, exit)}]),
    {ok, Offer} = heal:begin_exchange(B, 2, 0, 0),
    Cut = binary:part(Offer, 0, 40),
    ?assertMatch({error, {34, _}}, heal:hear(A, Cut)),
    {ok, _} = heal:begin_exchange(A, 1, 0, 0),
    ?assertMatch({error, {45, _}}, heal:hear(A, Cut)),
    ?assertMatch({error, {70, _}}, heal:hear(A, binary:part(Offer, 0, 24))).
