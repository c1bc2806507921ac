#!/usr/bin/env escript
%% A cluster of four nodes, split into two parts of two, heals. Prints the owner of the name that each node has then.

main([]) ->
    [One, Two, Four, Five] = Nodes = [ok(heal:replica(Node, 1)) || Node <- [1, 2, 4, 5]],
    %% Each part has a primary and a backup, which follows the primary and applies its entries.
    ok = follow(Two, One),
    ok = follow(Five, Four),
    ok = heal:replica_apply(Two, ok(heal:replica_register(One, <<"db">>, #{owner => {1, 10}, stamp => 0}))),
    ok = heal:replica_apply(Five, ok(heal:replica_register(Four, <<"db">>, #{owner => {4, 10}, stamp => 0}))),
    %% The primaries meet. The backups know the number of the exchange before it begins.
    {A, B} = {ok(heal:replica_side(One, a)), ok(heal:replica_side(Four, b))},
    ok = heal:replica_apply(Two, ok(heal:replica_begin(One, 1))),
    ok = heal:replica_apply(Five, ok(heal:replica_begin(Four, 1))),
    #{at := Before} = ok(heal:replica_query(One)),
    ok = exchange(A, B),
    %% One of them starts a view with the outcome, and all other nodes follow it.
    ok = heal:replica_change(One, Before, A),
    [ok = follow(Replica, One) || Replica <- [Two, Four, Five]],
    [io:format("node ~b: db ~b.~b~n", [Node | tuple_to_list(maps:get(owner, ok(heal:replica_whereis(Replica, <<"db">>))))])
     || {Node, Replica} <- lists:zip([1, 2, 4, 5], Nodes)].

exchange(A, B) ->
    {OfferOfA, OfferOfB} = {ok(heal:begin_exchange(A, 1, 7, 0)), ok(heal:begin_exchange(B, 1, 7, 0))},
    ok = heal:hear(A, OfferOfB),
    ok = heal:hear(B, OfferOfA),
    ok = heal:settle(A),
    ok = heal:settle(B),
    {ListOfA, ListOfB} = {ok(heal:close_list(A)), ok(heal:close_list(B))},
    ok = heal:hear_list(A, ListOfB),
    ok = heal:hear_list(B, ListOfA),
    {ok, _} = heal:finish(A),
    {ok, _} = heal:finish(B),
    ok.

follow(Replica, Primary) ->
    heal:replica_follow(Replica, ok(heal:replica_snapshot(Primary))).

ok({ok, Value}) -> Value.
