%% @private Uploads that wait until their program is on the disk of the caller's node.
%%
%% heal_log writes the programs and reports each write, also of programs that it has written before: somebody may have deleted the file.
%% Without a disk, no upload waits.
-module(heal_storing).

-include("heal_part.hrl").

-export([new/1, is_awaited/1, await/3, reported/4, broken/1]).
-export_type([stored/0]).

%% What the disk of a node has at its start, and why it can't be written.
-type stored() :: none | {[Id :: binary()], Problem :: none | term()}.

%% Returns the programs that are on the disk.
-spec new(stored()) -> {none | #{Id :: binary() => stored}, Problem :: none | term()}.
new(none) -> {none, none};
new({Ids, Problem}) -> {maps:from_keys(Ids, stored), Problem}.

%% Returns whether uploads wait for the disk.
-spec is_awaited(#part{}) -> boolean().
is_awaited(#part{stored = Stored}) ->
    Stored =/= none.

%% Lets an upload that is made wait for the disk.
-spec await(#call{}, Id :: binary(), #part{}) -> #part{}.
await(Call, Id, Part = #part{storing = Storing}) ->
    Part#part{storing = [{Id, (heal_edits:timed(Call, Part))#call{is_sent = true}} | Storing]}.

%% The disk has these programs, and lacks those, whose write has failed.
-spec reported(Ids :: [binary()], Lacking :: [binary()], Problem :: none | term(), #part{}) -> #part{}.
reported(Ids, Lacking, Problem, Part = #part{storing = Storing}) ->
    Failed = maps:from_keys(Lacking, lacking),
    Next = Part#part{stored = maps:from_keys(Ids, stored), unwritable = Problem, storing = []},
    lists:foldr(fun({Id, Call}, Sum) -> answer(Id, Call, is_map_key(Id, Failed), Sum) end, Next, Storing).

answer(_Id, #call{from = {caller, From}}, true, Part = #part{unwritable = Problem}) ->
    heal_state:add({reply, From, {error, {not_stored, Problem}}}, Part);
answer(Id, #call{from = {caller, From}}, false, Part = #part{stored = Stored}) when is_map_key(Id, Stored) ->
    heal_state:add({reply, From, {ok, Id}}, Part);
answer(Id, Call, false, Part = #part{storing = Storing}) ->
    Part#part{storing = [{Id, Call} | Storing]}.

%% Returns why the disk can't be written, as a problem of the node.
-spec broken(#part{}) -> [{dir, {node(), Problem :: term()}}].
broken(#part{unwritable = none}) -> [];
broken(#part{unwritable = Problem, node = Node}) -> [{dir, {Node, Problem}}].
