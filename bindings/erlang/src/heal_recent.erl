%% @private The latest entries of its view that a node has applied, and what they replaced. Nodes that lose their primary have different
%% ones of its last entries: with these, what differs for one of them serves the others too.
-module(heal_recent).

-include("heal_replica.hrl").

-export([new/0, note/4, covered/3, back/4]).
-export_type([recent/0]).

%% How many entries are remembered at least, once there were as many.
-define(MOST, 1000).

%% The entries of a view from the one after `since' to `last', the newest first, with the row that the name had before.
-record(recent, {
    view :: heal_replica:view(),
    since :: non_neg_integer(),
    last :: non_neg_integer(),
    entries = [] :: [{heal:name(), Before :: #row{} | none}]
}).

-opaque recent() :: none | #recent{}.

%% Returns that nothing is remembered.
-spec new() -> recent().
new() -> none.

%% Remembers an entry, which a half of these names has applied. Nothing goes back beyond an upload.
-spec note(heal_replica:position(), heal_replica:edit(), #{heal:name() => #row{}}, recent()) -> recent().
note({View, Operation}, {upload, _, _}, _Names, _Recent) ->
    #recent{view = View, since = Operation, last = Operation};
note({View, Operation}, Edit, Names, Recent) ->
    Name = element(2, Edit),
    #recent{since = Since, entries = Entries} = before(View, Operation - 1, Recent),
    shortened(#recent{view = View, since = Since, last = Operation, entries = [{Name, maps:get(Name, Names, none)} | Entries]}).

%% What is remembered up to this position.
before(View, Last, Recent = #recent{view = View, last = Last}) -> Recent;
before(View, Last, _Others) -> #recent{view = View, since = Last, last = Last}.

shortened(Recent = #recent{since = Since, last = Last, entries = Entries}) when Last - Since >= 2 * ?MOST ->
    Recent#recent{since = Last - ?MOST, entries = lists:sublist(Entries, ?MOST)};
shortened(Recent) ->
    Recent.

%% Returns the names that the entries after an operation, up to a position of the view, changed. They may not be remembered back to that
%% operation, but to the one that is returned.
-spec covered(From :: non_neg_integer(), heal_replica:position(), recent()) -> {Since :: non_neg_integer(), [heal:name()]}.
covered(From, {View, Operation}, Recent) ->
    #recent{since = Since, entries = Entries} = before(View, Operation, Recent),
    First = max(From, Since),
    {First, lists:usort([Name || {Name, _} <- lists:sublist(Entries, max(0, Operation - First))])}.

%% Returns the names of a half at a position as they were after an earlier operation of its view, and which of them differ; `none' if that
%% isn't remembered.
-spec back(To :: non_neg_integer(), heal_replica:position(), #{heal:name() => #row{}}, recent()) ->
    {#{heal:name() => #row{}}, [heal:name()]} | none.
back(To, {View, Operation}, Names, Recent) ->
    case before(View, Operation, Recent) of
        #recent{since = Since, entries = Entries} when Since =< To ->
            Undone = lists:sublist(Entries, Operation - To),
            {lists:foldl(fun restored/2, Names, Undone), lists:usort([Name || {Name, _} <- Undone])};
        _ ->
            none
    end.

restored({Name, none}, Names) -> maps:remove(Name, Names);
restored({Name, Row}, Names) -> Names#{Name => Row}.
