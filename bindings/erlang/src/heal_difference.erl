%% @private How the half of a view differs from the one that its primary had before. A node that had the earlier one gets that in place of
%% a snapshot: most names stay as they are when a node comes or goes. So does a node that lacks the latest entries of the view.
%%
%% A primary that is gone may have sent its last entries to some nodes alone. A node that has further ones goes back first. One that lacks
%% some wants what differs again, and then gets the names of these entries too.
-module(heal_difference).

-include("heal_part.hrl").

-export([note/3, base/3, between/2, given/2, wanted/2, position/1, applied/2]).
-export_type([difference/0, base/0]).

%% From a position, or one of its view after the operation `Since', to another position: the rows that may differ, the names that have none,
%% further programs, and the greatest number of an exchange.
-type difference() :: {Since :: non_neg_integer(), From :: heal_replica:position(), At :: heal_replica:position(),
                       Put :: #{heal:name() => #row{}}, Drop :: [heal:name()], Programs :: #{Id :: binary() => Code :: binary()},
                       Latest :: non_neg_integer()}.
-opaque base() :: #base{}.

%% Remembers an entry that this node has made or applied.
-spec note(heal_replica:edit(), Applied :: #part{}, Before :: #part{}) -> #part{}.
note(Edit, Applied = #part{recent = Recent}, Before) ->
    #half{names = Names} = heal_state:half(Before),
    Applied#part{recent = heal_recent:note(heal_state:at(Applied), Edit, Names, Recent)}.

%% Returns what the nodes may have that follow this node's view and are to follow its next one, except one that has that already.
-spec base(#{node() => #member{}}, Has :: none | node(), #part{}) -> none | base().
base(Members, Has, Part = #part{recent = Recent}) ->
    View = heal_state:view(Part),
    case [Node || {Node, #member{was = Was}} <- maps:to_list(Members), Was =:= View, Node =/= Has] of
        [] -> none;
        Nodes -> #base{at = heal_state:at(Part), half = heal_state:half(Part), recent = Recent, nodes = maps:from_keys(Nodes, new)}
    end.

%% Returns how this primary's half differs from the one that a node may have, or `none' if that isn't known or is much.
-spec between(node(), #part{}) -> none | difference().
between(Node, Part) ->
    case heal_peers:takes_differences(Node, Part) andalso {of_view(Node, Part), Part#part.base} of
        false -> none;
        {none, Base} -> of_base(Node, Base, Part);
        {Difference, _} -> Difference
    end.

%% The node follows this view, and may lack entries that are remembered.
of_view(Node, Part = #part{peers = Peers, recent = Recent}) ->
    At = {View, _} = heal_state:at(Part),
    case Peers of
        #{Node := #peer{at = {View, Own}}} ->
            case heal_recent:covered(Own, At, Recent) of
                Covered = {Own, _} -> difference(Covered, At, heal_state:half(Part), Part);
                _ -> none
            end;
        _ ->
            none
    end.

%% The node may have what the primary had before the view.
of_base(Node, #base{at = From = {_, Operation}, half = Half, nodes = Nodes, recent = Recent}, Part) ->
    case Nodes of
        #{Node := new} -> difference({Operation, []}, From, Half, Part);
        #{Node := behind} -> difference(heal_recent:covered(announced(Node, Part), From, Recent), From, Half, Part);
        _ -> none
    end;
of_base(_Node, none, _Part) ->
    none.

difference({Since, Names}, From, #half{names = Old, programs = Known}, Part) ->
    #half{names = New, programs = Programs, latest = Latest} = heal_state:half(Part),
    {Put, Drop} = with_names(Names, heal_home:changes(Old, New), New),
    IsShort = 2 * (map_size(Put) + length(Drop)) =< map_size(New),
    case maps:without(maps:keys(Programs), Known) of
        Gone when Gone =:= #{}, IsShort -> {Since, From, heal_state:at(Part), Put, Drop, maps:without(maps:keys(Known), Programs), Latest};
        _ -> none
    end.

%% The entries of the base's view that a node has, as it has announced.
announced(Node, #part{peers = Peers, base = #base{at = {View, Operation}}}) ->
    case Peers of
        #{Node := #peer{at = {View, Own}}} -> Own;
        _ -> Operation
    end.

%% Adds what these names have now.
with_names(Names, {Put, Drop}, New) ->
    {maps:merge(maps:from_list(Put), maps:with(Names, New)), lists:usort([Name || Name <- Names, not is_map_key(Name, New)] ++ Drop)}.

%% A node got a difference or a snapshot.
-spec given(node(), #part{}) -> #part{}.
given(Node, Part = #part{base = Base = #base{nodes = Nodes}}) ->
    case Nodes of
        #{Node := new} -> Part#part{base = Base#base{nodes = Nodes#{Node := sent}}};
        _ -> Part#part{base = Base#base{nodes = maps:remove(Node, Nodes)}}
    end;
given(_Node, Part) ->
    Part.

%% A node wants to follow: it couldn't use what it was sent. If it lacks entries that are remembered it gets what differs again.
-spec wanted(node(), #part{}) -> #part{}.
wanted(Node, Part = #part{base = Base = #base{at = From = {_, Operation}, nodes = Nodes, recent = Recent}}) ->
    Own = announced(Node, Part),
    case {Nodes, heal_recent:covered(Own, From, Recent)} of
        {#{Node := sent}, {Own, _}} when Own < Operation -> Part#part{base = Base#base{nodes = Nodes#{Node := behind}}};
        _ -> Part#part{base = Base#base{nodes = maps:remove(Node, Nodes)}}
    end;
wanted(_Node, Part) ->
    Part.

%% Returns the position that a difference leads to.
-spec position(difference()) -> heal_replica:position().
position({_Since, _From, At, _Put, _Drop, _Programs, _Latest}) -> At.

%% Returns the half that a difference leads to from this node's, and what it changes; `none' if this node is at another position.
-spec applied(difference(), #part{}) -> {#half{}, heal_home:changes()} | none.
applied({Since, From, At, Put, Drop, Programs, Latest}, Part = #part{replica = Replica}) ->
    Half = #half{names = Names, programs = Known} = heal_state:half(Part),
    case starting(Since, From, Names, Part) of
        none ->
            none;
        {Start, Undone} ->
            {_, #half{names = Rows}} = heal_replica:compact({At, #half{names = Put}}, Replica),
            New = maps:merge(maps:without(Drop, Start), Rows),
            Changes = changes(lists:usort(maps:keys(Rows) ++ Drop ++ Undone), Names, New),
            {Half#half{names = New, programs = maps:merge(Known, Programs), latest = Latest}, Changes}
    end.

%% The names from which the difference leads on, and those of them that this node's half has otherwise.
starting(Since, {View, Operation}, Names, Part = #part{recent = Recent}) ->
    case heal_state:at(Part) of
        {View, Own} when Own < Since -> none;
        {View, Own} when Own =< Operation -> {Names, []};
        At = {View, _} -> heal_recent:back(Operation, At, Names, Recent);
        _ -> none
    end.

%% Which of these names have another row, or none any more.
changes(Names, Old, New) ->
    {[{Name, Row} || Name <- Names, #{Name := Row} <- [New], maps:get(Name, Old, none) =/= Row],
     [Name || Name <- Names, is_map_key(Name, Old), not is_map_key(Name, New)]}.
