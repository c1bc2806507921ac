%% The latest entries of a node.
-module(heal_recent_tests).

-include_lib("eunit/include/eunit.hrl").
-include("../src/heal_replica.hrl").

-define(VIEW, {{a, 1}, 1}).

%% One name after the other is registered, and the first one again under other rows.
edits(Count) ->
    [{register, <<(N rem 100)>>, N} || N <- lists:seq(1, Count)].

%% The names after these edits, and what is remembered of them.
noted(Edits) ->
    lists:foldl(fun(Edit, {Operation, Names, Recent}) ->
        {Operation + 1, made(Edit, Names), heal_recent:note({?VIEW, Operation + 1}, Edit, Names, Recent)}
    end, {0, #{}, heal_recent:new()}, Edits).

made({register, Name, Row}, Names) -> Names#{Name => Row};
made({unregister, Name}, Names) -> maps:remove(Name, Names);
made({upload, _, _}, Names) -> Names.

%% It goes back to each operation, and returns the names that differ.
back_test() ->
    Edits = edits(5) ++ [{unregister, <<2>>}, {register, <<1>>, 9}, {unregister, <<3>>}, {register, <<3>>, 10}],
    {Last, Names, Recent} = noted(Edits),
    [begin
        {_, Before, _} = noted(lists:sublist(Edits, To)),
        Changed = lists:usort([element(2, Edit) || Edit <- lists:nthtail(To, Edits)]),
        ?assertEqual({Before, Changed}, heal_recent:back(To, {?VIEW, Last}, Names, Recent)),
        ?assertEqual({To, Changed}, heal_recent:covered(To, {?VIEW, Last}, Recent))
     end || To <- lists:seq(0, Last)].

%% It remembers nothing of another view, from before an upload, or of entries that it has missed.
not_remembered_test() ->
    {Last, Names, Recent} = noted(edits(5) ++ [{upload, <<0:256>>, <<0>>} | edits(2)]),
    ?assertEqual(none, heal_recent:back(5, {?VIEW, Last}, Names, Recent)),
    ?assertMatch({_, [<<1>>, <<2>>]}, heal_recent:back(6, {?VIEW, Last}, Names, Recent)),
    ?assertEqual({6, [<<1>>, <<2>>]}, heal_recent:covered(0, {?VIEW, Last}, Recent)),
    [?assertEqual({none, {Operation, []}}, {heal_recent:back(Operation - 1, At, Names, Recent), heal_recent:covered(0, At, Recent)})
     || At = {_, Operation} <- [{{{a, 1}, 2}, Last}, {?VIEW, Last + 1}]],
    Later = heal_recent:note({?VIEW, Last + 2}, {unregister, <<1>>}, Names, Recent),
    ?assertEqual({Last + 1, [<<1>>]}, heal_recent:covered(0, {?VIEW, Last + 2}, Later)).

%% However many entries there are, it remembers a thousand at least, and twice as many at most.
bounded_test() ->
    [begin
        {Count, Names, Recent} = noted(edits(Count)),
        {Since, Changed} = heal_recent:covered(0, {?VIEW, Count}, Recent),
        ?assert(Count - Since >= 1000 andalso Count - Since < 2000),
        ?assertEqual(100, length(Changed)),
        {_, Before, _} = noted(edits(Since)),
        ?assertMatch({Before, _}, heal_recent:back(Since, {?VIEW, Count}, Names, Recent)),
        ?assertEqual(none, heal_recent:back(Since - 1, {?VIEW, Count}, Names, Recent))
     end || Count <- [2000, 2999, 3000, 3001, 5500]].
