%% @private What the modules of a part read of its state, and the actions that they add to it.
-module(heal_state).

-include("heal_part.hrl").

-export([at/1, view/1, half/1, count/1, owner/2, life/1, is_primary/1, primary/1, patience/1, longer/1, until_followed/1, tick/1]).
-export([add/2, continue/2, later/2, send/3, send_all/3]).

%% Returns the position of this node's replica.
-spec at(#part{}) -> heal_replica:position().
at(#part{replica = Replica}) -> heal_replica:position(Replica).

%% Returns the view that this node is in.
-spec view(#part{}) -> heal_replica:view().
view(#part{replica = Replica}) -> element(1, heal_replica:position(Replica)).

%% Returns the half of this node's replica.
-spec half(#part{}) -> #half{}.
half(#part{replica = Replica}) -> heal_replica:half(Replica).

%% Returns how many names that half has.
-spec count(#part{}) -> non_neg_integer().
count(Part) -> map_size((half(Part))#half.names).

%% Returns who has a name in this node's replica.
-spec owner(heal:name(), #part{}) -> heal:owner() | none.
owner(Name, Part) ->
    case (half(Part))#half.names of
        #{Name := Row} -> heal_row:owner(Row);
        _ -> none
    end.

%% Returns the life of this node.
-spec life(#part{}) -> heal_replica:life().
life(#part{replica = Replica}) -> heal_replica:life(Replica).

%% Returns whether this node is the primary of its view.
-spec is_primary(#part{}) -> boolean().
is_primary(#part{replica = Replica}) -> heal_replica:is_primary(Replica).

%% Returns the life that is the primary of this node's view.
-spec primary(#part{}) -> heal_replica:life().
primary(Part) -> element(1, view(Part)).

%% How long a part waits for one node, so that edits that wait for it are still made in time.
-spec patience(#part{}) -> pos_integer().
patience(#part{edit_timeout = Edit, exchange_timeout = Exchange}) -> max(1, min(Edit div 2, Exchange)).

%% Returns how many milliseconds longer something with this number of names may take: one for each 50.
-spec longer(Names :: non_neg_integer()) -> non_neg_integer().
longer(Names) -> Names div 50.

%% Returns until when a part waits for a node to follow a view, or to lead one. One of the two sends a snapshot, and the other one reads it.
-spec until_followed(#part{}) -> integer().
until_followed(Part = #part{now = Now}) -> Now + patience(Part) + 2 * longer(count(Part)).

%% How often a part looks for what is late.
-spec tick(#part{}) -> pos_integer().
tick(#part{edit_timeout = Edit, exchange_timeout = Exchange}) -> max(5, min(Edit, Exchange) div 10).

%% Adds an action.
-spec add(heal_part:action(), #part{}) -> #part{}.
add(Action, Part = #part{out = Out}) -> Part#part{out = [Action | Out]}.

%% Goes on with a step once the other actions are done: messages are on their way by then.
-spec continue(heal_part:step(), #part{}) -> #part{}.
continue(Step, Part) -> add({continue, Step}, Part).

%% Goes on with a step once the messages that have arrived are handled.
-spec later(heal_part:step(), #part{}) -> #part{}.
later(Step, Part) -> add({later, Step}, Part).

%% Sends a body to a node.
-spec send(node(), Body :: term(), #part{}) -> #part{}.
send(Node, Body, Part) -> add({send, Node, Body}, Part).

%% Sends a body to nodes.
-spec send_all([node()], Body :: term(), #part{}) -> #part{}.
send_all(Nodes, Body, Part = #part{out = Out}) ->
    Part#part{out = lists:foldl(fun(Node, Sum) -> [{send, Node, Body} | Sum] end, Out, Nodes)}.
