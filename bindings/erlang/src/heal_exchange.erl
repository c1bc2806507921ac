%% @private An exchange by libheal, for heal_meeting: a side that is made for it, and what else a part reads of its node.
%%
%% heal_meeting calls each function at most once for each exchange and in this order: `prepare', `update', `open', `hear', `withdraw' any
%% number of times, `close', `finish'. A side is dropped when its exchange is over or abandoned.
-module(heal_exchange).

-include("heal_replica.hrl").

-export([prepare/4, update/3, open/3, hear/2, withdraw/2, close/1, finish/3, rulings/1, seed/0, serial/0, is_alive/1]).
-export_type([handle/0, rulings/0]).

-type refused() :: {error, pos_integer()}.
-opaque handle() :: {a | b, heal:side()}.
-opaque rulings() :: heal:outcome().

%% Makes a side of these names, which may have as many names as the limit. The leader is side a.
-spec prepare(a | b, #{heal:name() => #row{}}, #{binary() => binary()}, Limit :: pos_integer()) -> {ok, handle()} | refused().
prepare(Id, Names, Programs, Limit) ->
    {ok, Side} = heal:side(Id, Limit),
    Rows = [{Name, heal_row:values(Row)} || {Name, Row} <- maps:to_list(Names)],
    Calls = [fun() -> plain(heal:upload(Side, Code)) end || Code <- maps:values(Programs)]
        ++ [fun() -> heal:register_all(Side, Rows) end, fun() -> heal:renew(Side) end],
    with({Id, Side}, all(Calls)).

%% Replaces names: those that are gone, and these rows.
-spec update(Put :: [{heal:name(), #row{}}], Gone :: [heal:name()], handle()) -> {ok, handle()} | refused().
update(Put, Gone, Handle = {_, Side}) ->
    Rows = [{Name, heal_row:values(Row)} || {Name, Row} <- Put],
    Calls = [fun() -> heal:unregister(Side, Name) end || Name <- Gone]
        ++ [fun() -> heal:register_all(Side, Rows) end, fun() -> heal:renew(Side) end],
    with(Handle, all(Calls)).

%% Begins the exchange, and returns the offer.
-spec open(Number :: pos_integer(), Seed :: non_neg_integer(), handle()) -> {ok, Offer :: binary(), handle()} | refused().
open(Number, Seed, Handle = {_, Side}) ->
    with(Handle, heal:begin_exchange(Side, Number, Seed, heal_names:uptime())).

%% Hears the other's offer and judges every clash.
-spec hear(Offer :: binary(), handle()) -> {ok, handle()} | refused().
hear(Offer, Handle = {_, Side}) ->
    with(Handle, all([fun() -> heal:hear(Side, Offer) end, fun() -> heal:settle(Side) end])).

%% Withdraws a name whose process is gone. `late' means that the list is closed.
-spec withdraw(heal:name(), handle()) -> {ok, handle()} | late.
withdraw(Name, Handle = {_, Side}) ->
    case heal:withdraw(Side, Name) of
        ok -> {ok, Handle};
        {error, _} -> late
    end.

%% Closes the list of withdrawn names, and returns it.
-spec close(handle()) -> {ok, List :: binary(), handle()} | refused().
close(Handle = {_, Side}) ->
    with(Handle, heal:close_list(Side)).

%% Hears the other's list. Returns how many names clash, what this side loses by that, and all rulings; and what the merge has under these
%% names.
-spec finish(List :: binary(), [heal:name()], handle()) ->
    {ok, {Clashes :: non_neg_integer(), [heal:loss()], rulings()}, [{heal:name(), heal:values()}], Lacking :: [heal:name()]} | refused().
finish(List, Names, {Id, Side}) ->
    case all([fun() -> heal:hear_list(Side, List) end, fun() -> heal:finish(Side) end]) of
        {ok, Outcome} ->
            {ok, Clashes, Losses} = heal:losses(Outcome, Id),
            {ok, Rows, Lacking} = heal:values(Side, Names),
            {ok, {Clashes, Losses, Outcome}, Rows, Lacking};
        Refused ->
            Refused
    end.

%% Returns the clashes in short.
-spec rulings(rulings()) -> [heal:ruling()].
rulings(Outcome) ->
    {ok, Rulings} = heal:rulings(Outcome),
    Rulings.

%% Returns a random seed.
-spec seed() -> non_neg_integer().
seed() -> heal_names:seed().

%% Returns a number that this run of the node gave to no other owner.
-spec serial() -> pos_integer().
serial() -> heal_names:serial().

%% Returns whether a process may be alive. Another node's process is watched by that node.
-spec is_alive(pid()) -> boolean().
is_alive(Pid) -> node(Pid) =/= node() orelse is_process_alive(Pid).

%% Makes calls until one is refused. Returns the last answer.
all([Call | Rest]) ->
    case {Call(), Rest} of
        {{error, {Number, _}}, _} -> {error, Number};
        {Answer, []} -> Answer;
        {ok, _} -> all(Rest)
    end.

plain({ok, _}) -> ok;
plain(Refused) -> Refused.

with(Handle, ok) -> {ok, Handle};
with(Handle, {ok, Message}) -> {ok, Message, Handle};
with(_Handle, {error, Number}) when is_integer(Number) -> {error, Number};
with(_Handle, {error, {Number, _}}) -> {error, Number}.
