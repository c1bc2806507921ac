%% @private A row of a part's table: a registration, its process and its home.
%%
%% A node has each row in the heap of its registry and in its ETS table, so a row is one tuple, and what rows have alike is in the heap
%% once. Callers, libheal and messages have a registration as a map.
-module(heal_row).

-include("heal_replica.hrl").

-export([new/5, of_values/5, values/1, owner/1, is_of/2, are_of_one/2, resolver/1, registration/1, change/2, share/2]).
-export([sent/1, received/2, upgrade/2]).
-export_type([alike/0, sent/0, shared/0]).

-define(NOTHING, <<0:128>>).
%% How many homes and so on a replica remembers to share them.
-define(SHARED, 1000).

%% The number of the owner's node, and the options. Most registrations of a node have the same ones.
-type alike() :: {Node :: 0..16#ffffffff, Weight :: non_neg_integer(), Extra :: <<_:128>>, heal:resolver()}.
%% A row in a message, and that of an earlier version.
-type sent() :: {row, heal:registration(), pid(), Term :: term(), Home :: heal_replica:life()}.
%% Each term as its own value: the copy that rows share.
-type shared() :: #{Term :: term() => Term :: term()}.

%% Makes the row of a name.
-spec new(heal:name(), heal:registration(), pid(), Term :: term(), Home :: heal_replica:life()) -> #row{}.
new(Name, Registration, Pid, Term, Home) ->
    #{owner := {Node, Serial}, stamp := Stamp, weight := Weight, extra := Extra, resolver := Resolver} = Registration,
    of_values(Name, {Serial, Stamp, {Node, Weight, Extra, Resolver}}, Pid, Term, Home).

%% Makes the row of a name from what libheal has of it.
-spec of_values(heal:name(), heal:values(), pid(), Term :: term(), Home :: heal_replica:life()) -> #row{}.
of_values(Name, {Serial, Stamp, Alike}, Pid, Term, Home) ->
    Spelled = if Term =:= Name -> Name; true -> Term end,
    #row{serial = Serial, stamp = Stamp, alike = Alike, pid = Pid, term = Spelled, home = Home}.

%% Returns what libheal has of the row.
-spec values(#row{}) -> heal:values().
values(#row{serial = Serial, stamp = Stamp, alike = Alike}) -> {Serial, Stamp, Alike}.

%% Returns the owner.
-spec owner(#row{}) -> heal:owner().
owner(#row{serial = Serial, alike = {Node, _, _, _}}) -> {Node, Serial}.

%% Returns whether this is the owner.
-spec is_of(heal:owner(), #row{}) -> boolean().
is_of({Node, Serial}, #row{serial = Serial, alike = {Node, _, _, _}}) -> true;
is_of(_Owner, _Row) -> false.

%% Returns whether two rows have one owner.
-spec are_of_one(#row{}, #row{}) -> boolean().
are_of_one(#row{serial = Serial, alike = {Node, _, _, _}}, #row{serial = Serial, alike = {Node, _, _, _}}) -> true;
are_of_one(_Row, _Other) -> false.

%% Returns the resolver.
-spec resolver(#row{}) -> heal:resolver().
resolver(#row{alike = {_, _, _, Resolver}}) -> Resolver.

%% Returns the registration.
-spec registration(#row{}) -> heal:registration().
registration(#row{serial = Serial, stamp = Stamp, alike = {Node, Weight, Extra, Resolver}}) ->
    #{owner => {Node, Serial}, stamp => Stamp, weight => Weight, extra => Extra, resolver => Resolver}.

%% Changes those of the stamp and the options that are given.
-spec change(#row{}, heal_replica:changes()) -> #row{}.
change(Row = #row{stamp = Stamp, alike = {Node, Weight, Extra, Resolver}}, Changes) ->
    Of = fun(Key, Before) -> maps:get(Key, Changes, Before) end,
    Row#row{stamp = Of(stamp, Stamp), alike = {Node, Of(weight, Weight), Of(extra, Extra), Of(resolver, Resolver)}}.

%% Returns the same row with the copies of what other rows have too. Weights and extra bytes may differ from row to row.
-spec share(#row{}, shared()) -> {#row{}, shared()}.
share(Row = #row{home = Home, alike = Alike = {_, 0, Extra, _}}, Shared) when Extra =:= ?NOTHING ->
    {OfHome, More} = shared(Home, Shared),
    {OfAlike, All} = shared(Alike, More),
    {Row#row{home = OfHome, alike = OfAlike}, All};
share(Row = #row{home = Home}, Shared) ->
    {OfHome, All} = shared(Home, Shared),
    {Row#row{home = OfHome}, All}.

shared(Term, Shared) ->
    case Shared of
        #{Term := Known} -> {Known, Shared};
        _ when map_size(Shared) < ?SHARED -> {Term, Shared#{Term => Term}};
        _ -> {Term, #{Term => Term}}
    end.

%% Returns the row as messages have it.
-spec sent(#row{}) -> sent().
sent(Row = #row{pid = Pid, term = Term, home = Home}) ->
    {row, registration(Row), Pid, Term, Home}.

%% Returns the row of a name that a message has.
-spec received(heal:name(), sent()) -> #row{}.
received(Name, {row, Registration, Pid, Term, Home}) ->
    new(Name, Registration, Pid, Term, Home).

%% Takes over a row that an earlier version may have made.
-spec upgrade(heal:name(), #row{} | sent()) -> #row{}.
upgrade(_Name, Row = #row{}) -> Row;
upgrade(Name, Earlier) -> received(Name, Earlier).
