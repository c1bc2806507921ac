%% @private The nodes that a registry is connected with: who has announced itself, who is refused and why, and who is waited for.
-module(heal_peers).

-include("heal_part.hrl").

-export([link/2, connecting/2, attempted/2, failed/2, here/3, announce/1, announce_to/2, hurry/2, moved/4, pulse/1]).
-export([has_met/3, takes_groups/2, takes_differences/2, is_silent/2, is_connected/2, is_in_setting/2, is_primary/1, followers/1, give_up/2, heard_of/2]).
-export([retry/4, hopeful/2, turned_down/2, arrived/1, sync/1, report/1]).
-export_type([refusal/0, problems/0, here/0]).

-define(STORE_FULL, 43).
%% The form of differences that this version sends and takes.
-define(DIFFERENCES, 2).

-type refusal() :: nodes | scope | hidden | numbers | version.
-type problems() :: #{refusal() | silent | dir | pos_integer() => {node(), Info :: term()}}.
-type here() :: #{
    life := heal_replica:life(),
    seq := pos_integer(),
    number := non_neg_integer(),
    nodes := any | [node()],
    scope := term(),
    at := heal_replica:position(),
    members := [node()],
    is_settled := boolean(),
    is_first := boolean(),
    %% The node takes several bodies in one message, the processes of an offer in groups, and differences in place of snapshots; it leaves
    %% it to the larger of two parts to lead an exchange. Nodes of earlier versions don't announce it, or announce other differences.
    bundles => boolean(),
    groups => boolean(),
    differences => pos_integer()
}.

%% ---- Links ----

%% A connection or a registry has come or gone, or a node has other messages.
-spec link(heal_part:event(), #part{}) -> #part{}.
link({up, Node, _Type}, Part = #part{links = Links}) when is_map_key(Node, Links) ->
    %% A registry that starts learns of a node twice.
    Part;
link({up, Node, Type}, Part = #part{links = Links, nodes = Nodes}) ->
    Linked = Part#part{links = Links#{Node => #link{type = Type}}},
    %% A node that the setting doesn't admit is in no part, and one of another kind may never answer.
    announce_to(Node, true, case is_admitted(Node, Type, Nodes) of true -> await(Node, Linked); false -> Linked end);
link({down, Node}, Part = #part{links = Links, awaited = Awaited}) ->
    forget(Node, heal_congestion:forget(Node, Part#part{links = maps:remove(Node, Links), awaited = maps:remove(Node, Awaited)}));
link({version, Node, Version}, Part = #part{peers = Peers}) ->
    case Peers of
        #{Node := _} -> Part;
        _ -> announce_once(Node, {refused, version, Version}, false, Part)
    end;
link({Kind, Node}, Part = #part{links = Links}) ->
    case {Kind, Links} of
        %% A registry that is refused has failed, and starts again.
        {absent, #{Node := #link{state = {refused, _, _}}}} -> Part;
        _ -> asked_again(Node, Part, forget(Node, mark(Node, absent, Part)))
    end.

%% The next registry of a node that had announced itself may have done so before it was known that the last one is gone. Then it does so
%% again.
asked_again(Node, #part{peers = Before}, Part) when is_map_key(Node, Before) -> hurry(Node, Part);
asked_again(_Node, _Before, Part) -> Part.

%% Gives a node up that takes no requests, until it announces itself.
-spec give_up(node(), #part{}) -> #part{}.
give_up(Node, Part) ->
    forget(Node, mark(Node, deaf, Part)).

%% A hidden node is in no part unless the setting names it.
is_admitted(_Node, Type, any) -> Type =/= hidden;
is_admitted(Node, _Type, Nodes) -> lists:member(Node, Nodes).

forget(Node, Part = #part{peers = Peers, grouping = Grouping, differing = Differing}) ->
    Part#part{peers = maps:remove(Node, Peers), grouping = maps:remove(Node, Grouping), differing = maps:remove(Node, Differing)}.

mark(Node, State, Part = #part{links = Links, awaited = Awaited}) ->
    case Links of
        #{Node := Link} -> Part#part{links = Links#{Node := Link#link{state = State}}, awaited = maps:remove(Node, Awaited)};
        _ -> Part
    end.

%% Answers a node that is refused, so that it learns why, but not each of its messages.
announce_once(Node, Refused = {refused, Why, _}, IsFirst, Part = #part{links = Links}) ->
    case Links of
        #{Node := #link{state = Refused}} when IsFirst -> tell(Node, Why, mark(Node, Refused, Part));
        #{Node := #link{state = Refused}} -> mark(Node, Refused, Part);
        _ -> tell(Node, Why, announce_to(Node, forget(Node, mark(Node, Refused, met(Node, Why, Part)))))
    end.

%% Sends a node why it is refused: it may not refuse this one. No exchange has the number.
tell(Node, Why, Part) ->
    heal_state:send(Node, {abandon, 0, Why}, Part).

%% A node queries this one. Returns false unless the node is refused: then it learns why.
-spec turned_down(node(), #part{}) -> {true, #part{}} | false.
turned_down(Node, Part = #part{links = Links}) ->
    case Links of
        #{Node := #link{state = {refused, Why, _}}} -> {true, tell(Node, Why, Part)};
        _ -> false
    end.

%% A node that runs a registry in this scope is to be connected again when it is lost. A hidden one stays apart.
met(_Node, Why, Part) when Why =:= scope; Why =:= hidden -> Part;
met(Node, _Why, Part) -> heal_state:add({keep, {met, Node}, true}, Part).

await(Node, Part = #part{awaited = Awaited, now = Now}) ->
    Part#part{awaited = Awaited#{Node => Now + heal_state:patience(Part)}}.

%% An attempt to connect a node has begun: it may have names.
-spec connecting(node(), #part{}) -> #part{}.
connecting(Node, Part) ->
    await(Node, Part).

%% The attempt is over.
-spec attempted(node(), #part{}) -> #part{}.
attempted(Node, Part = #part{links = Links}) when is_map_key(Node, Links) ->
    Part;
attempted(Node, Part = #part{awaited = Awaited}) ->
    Part#part{awaited = maps:remove(Node, Awaited)}.

%% The registry of a node has failed. It is expected to start again, which takes longer the more names there are.
-spec failed(node(), #part{}) -> #part{}.
failed(Node, Part = #part{peers = Peers, now = Now}) ->
    case Peers of
        #{Node := Peer} ->
            Longer = heal_state:longer(heal_state:count(Part)),
            Part#part{peers = Peers#{Node := Peer#peer{heard = Now + Longer}}};
        _ ->
            Part
    end.

%% Returns whether a node is connected.
-spec is_connected(node(), #part{}) -> boolean().
is_connected(Node, #part{links = Links}) ->
    is_map_key(Node, Links).

%% ---- Announcements ----

%% Announces this node's position to all nodes.
-spec announce(#part{}) -> #part{}.
announce(Part = #part{links = Links}) ->
    lists:foldl(fun announce_to/2, Part, lists:sort(maps:keys(Links))).

%% Announces this node's position to one node.
-spec announce_to(node(), #part{}) -> #part{}.
announce_to(Node, Part) ->
    announce_to(Node, false, Part).

%% Has a node announce itself. A primary sends first what it keeps for this node.
-spec hurry(node(), #part{}) -> #part{}.
hurry(Node, Part) ->
    announce_to(Node, true, Part).

%% The first announcement to a node is to be answered by that node's.
announce_to(Node, IsFirst, Part = #part{seq = Seq, number = Number, nodes = Nodes, scope = Scope, settle_by = SettleBy}) ->
    Here = #{
        life => heal_state:life(Part),
        seq => Seq + 1,
        number => Number,
        nodes => Nodes,
        scope => Scope,
        at => heal_state:at(Part),
        members => heal_view:members(Part),
        is_settled => SettleBy =:= none,
        is_first => IsFirst,
        bundles => true,
        groups => true,
        differences => ?DIFFERENCES
    },
    heal_state:send(Node, {here, Here}, Part#part{seq = Seq + 1}).

%% Takes what a node has announced, unless it is older than what is known.
-spec here(node(), here(), #part{}) -> #part{}.
here(Node, Here = #{life := Life = {Node, _}, seq := Seq}, Part = #part{peers = Peers}) ->
    case Peers of
        #{Node := #peer{life = Life, seq = Last}} when Seq =< Last -> Part;
        #{Node := #peer{life = Later}} when Later > Life -> Part;
        _ -> fresh(Node, Here, refusal(Node, Here, Part), answered(Node, Here, Part))
    end;
here(_Node, _Here, Part) ->
    Part.

answered(Node, #{is_first := true}, Part) -> announce_to(Node, Part);
answered(_Node, _Here, Part) -> Part.

fresh(Node, Here = #{life := Life, seq := Seq, number := Number, at := At}, none, Part = #part{peers = Peers}) ->
    Met = met(Node, none, Part),
    case Peers of
        #{Node := Peer = #peer{life = Life}} ->
            heard(Node, Here, Peer, Met);
        _ ->
            %% It announces itself for the first time in this life.
            Peer = #peer{life = Life, seq = Seq, number = Number, at = At, heard = Part#part.now, met = Part#part.now},
            heard(Node, Here, Peer, linked(Node, Met))
    end;
fresh(Node, #{is_first := IsFirst}, {Why, Info}, Part) ->
    announce_once(Node, {refused, Why, Info}, IsFirst, Part).

linked(Node, Part = #part{links = Links}) ->
    #{Node := Link} = Links,
    Part#part{links = Links#{Node := Link#link{state = peer}}}.

heard(Node, Here = #{seq := Seq, at := At, members := Members, is_settled := IsSettled}, Peer, Part = #part{peers = Peers, now = Now}) ->
    Retry = case Peer of
        #peer{at = At, retry = Known} -> Known;
        #peer{failed = none} -> 0;
        #peer{retry = Known} -> Known
    end,
    Heard = Peer#peer{seq = Seq, at = At, members = Members, is_settled = IsSettled, heard = Now, retry = Retry},
    #part{grouping = Grouping, differing = Differing} = Part,
    Part#part{peers = Peers#{Node => Heard}, grouping = taking(Node, groups, true, Here, Grouping),
              differing = taking(Node, differences, ?DIFFERENCES, Here, Differing)}.

%% Notes whether a node takes what not all versions do.
taking(Node, Kind, Form, Here, Nodes) ->
    case Here of
        #{Kind := Form} -> Nodes#{Node => true};
        _ -> maps:remove(Node, Nodes)
    end.

%% Returns whether a node takes the processes of an offer in groups.
-spec takes_groups(node(), #part{}) -> boolean().
takes_groups(Node, #part{grouping = Grouping}) -> is_map_key(Node, Grouping).

%% Returns whether a node takes differences, and leaves it to the larger of two parts to lead an exchange.
-spec takes_differences(node(), #part{}) -> boolean().
takes_differences(Node, #part{differing = Differing}) -> is_map_key(Node, Differing).

%% A node has moved, as another message than an announcement shows. Returns false if that is older than what is known.
-spec moved(node(), Seq :: pos_integer(), heal_replica:position(), #part{}) -> {true, #part{}} | false.
moved(Node, Seq, At, Part = #part{peers = Peers, now = Now}) ->
    case Peers of
        #{Node := Peer = #peer{seq = Last}} when Seq > Last ->
            {true, Part#part{peers = Peers#{Node := Peer#peer{seq = Seq, at = At, heard = Now}}}};
        _ ->
            false
    end.

%% A message shows that a node doesn't hang.
-spec heard_of(node(), #part{}) -> #part{}.
heard_of(Node, Part = #part{peers = Peers, now = Now}) ->
    #{Node := Peer} = Peers,
    Part#part{peers = Peers#{Node := Peer#peer{heard = Now}}}.

%% Returns why this node doesn't accept another one.
refusal(_Node, #{scope := Other}, #part{scope = Own}) when Other =/= Own ->
    {scope, Other};
refusal(Node, #{nodes := Theirs, number := Number}, Part = #part{node = Self, nodes = Own, links = Links}) ->
    #{Node := #link{type = Type}} = Links,
    Same = namesake(Node, Number, Part),
    if
        Own =/= any -> case lists:member(Node, Own) andalso includes(Self, Theirs) of true -> Same; false -> {nodes, Theirs} end;
        Type =:= hidden -> {hidden, Number};
        true -> case includes(Self, Theirs) of true -> Same; false -> {nodes, Theirs} end
    end.

%% Returns whether this node's setting admits a node.
-spec is_in_setting(node(), #part{}) -> boolean().
is_in_setting(Node, #part{nodes = Nodes}) -> includes(Node, Nodes).

includes(_Node, any) -> true;
includes(Node, Nodes) -> lists:member(Node, Nodes).

%% Two nodes with one number can't be in one part. Of two others the greater is refused.
namesake(_Node, Number, #part{number = Number, node = Self}) ->
    {numbers, {Self, Number}};
namesake(Node, Number, #part{peers = Peers}) ->
    case [Other || {Other, #peer{number = Same}} <- maps:to_list(Peers), Same =:= Number, Other =/= Node] of
        [] -> none;
        [Other | _] -> {numbers, {Other, Number}}
    end.

%% ---- What the announcements show ----

%% Returns whether a node is a primary, as it has announced.
-spec is_primary(#peer{}) -> boolean().
is_primary(#peer{life = Life, at = {{Primary, _}, _}}) -> Life =:= Primary.

%% Returns whether this node is connected with all of these nodes, which are in the part of another one, or has waited for that long
%% enough: nodes that meet connect one after the other.
-spec has_met([node()], #peer{}, #part{}) -> boolean().
has_met(Nodes, #peer{met = Met}, Part = #part{now = Now, node = Self, links = Links}) ->
    Now - Met > heal_state:patience(Part) orelse [Node || Node <- Nodes, Node =/= Self, not is_map_key(Node, Links)] =:= [].

%% A connected node has announced nothing for a long time: it hangs.
-spec is_silent(#peer{}, #part{}) -> boolean().
is_silent(#peer{heard = Heard}, Part = #part{now = Now}) -> Now - Heard > silence(Part).

silence(#part{exchange_timeout = Timeout}) -> 2 * max(Timeout, 1000).

%% Announces this node's position again after a while. An announcement that is lost is made good, and so is an entry.
-spec pulse(#part{}) -> #part{}.
pulse(Part = #part{next_pulse = Next, now = Now}) when Now < Next ->
    Part;
pulse(Part = #part{now = Now}) ->
    announce(Part#part{next_pulse = Now + silence(Part) div 8}).

%% Returns the nodes that announced this node's view, with their announcements.
-spec followers(#part{}) -> #{node() => #peer{}}.
followers(Part = #part{peers = Peers}) ->
    View = heal_state:view(Part),
    maps:filter(fun(_, #peer{at = {Of, _}}) -> Of =:= View end, Peers).

%% Puts the next attempt to heal with a node off, as the last one has failed.
-spec retry(node(), Failed :: none | silent | refusal() | pos_integer(), After :: pos_integer(), #part{}) -> #part{}.
retry(Node, Failed, After, Part = #part{peers = Peers, now = Now}) ->
    case Peers of
        #{Node := Peer} -> Part#part{peers = Peers#{Node := Peer#peer{retry = Now + After, failed = Failed}}};
        _ -> Part
    end.

%% An exchange that has failed in silence is worth another attempt.
-spec hopeful(node(), #part{}) -> #part{}.
hopeful(Node, Part = #part{peers = Peers}) ->
    case Peers of
        #{Node := Peer = #peer{failed = silent}} -> Part#part{peers = Peers#{Node := Peer#peer{failed = none, retry = 0}}};
        _ -> Part
    end.

%% ---- Who is waited for ----

%% Edits don't wait any more for nodes that are in this part, are gone, have failed to heal, or belong to another primary.
-spec arrived(#part{}) -> #part{}.
arrived(Part = #part{awaited = Awaited}) when Awaited =:= #{} ->
    Part;
arrived(Part = #part{awaited = Awaited, peers = Peers, members = Members, now = Now}) ->
    View = heal_state:view(Part),
    IsAwaited = fun(Node, Until) ->
        Now < Until andalso not is_map_key(Node, Members) andalso case Peers of
            #{Node := #peer{at = {View, _}}} -> false;
            #{Node := Peer = #peer{failed = none}} -> is_primary(Peer);
            #{Node := _} -> false;
            _ -> true
        end
    end,
    Part#part{awaited = maps:filter(IsAwaited, Awaited)}.

%% Answers the callers that wait until this node has healed.
-spec sync(#part{}) -> #part{}.
sync(Part = #part{syncing = []}) ->
    Part;
sync(Part = #part{syncing = Syncing, links = Links, peers = Peers}) ->
    View = heal_state:view(Part),
    Apart = [Peer || Peer = #peer{at = {Of, _}} <- maps:values(Peers), Of =/= View],
    Refused = [refused || #link{state = {refused, _, _}} <- maps:values(Links)],
    Answer = case {heal_meeting:is_idle(Part), [open || #peer{failed = none} <- Apart]} of
        {false, _} -> later;
        {true, [_ | _]} -> case [coming || Peer <- Apart, is_coming(Peer, Part), not is_late(Peer, Part)] of [] -> {error, apart}; _ -> later end;
        {true, []} when Apart =/= []; Refused =/= [] -> {error, apart};
        {true, []} -> ok
    end,
    case Answer of
        later -> Part;
        _ -> lists:foldl(fun(From, Sum) -> heal_state:add({reply, From, Answer}, Sum) end, Part#part{syncing = []}, Syncing)
    end.

%% Returns whether a node is a primary, or its primary is connected and has not failed to heal: then it follows, or heals with, another view
%% soon.
is_coming(#peer{at = {{Primary, _}, _}}, Part = #part{peers = Peers}) ->
    lists:member(Primary, [heal_state:life(Part) | [Of || #peer{life = Of, failed = none} <- maps:values(Peers)]]).

%% Returns whether a node has been there for long while this one follows a primary, which isn't connected with it then.
is_late(#peer{met = Met}, Part = #part{now = Now}) ->
    not heal_state:is_primary(Part) andalso Now - Met > silence(Part).

%% Reports what keeps this node apart from others, if that has changed.
-spec report(#part{}) -> #part{}.
report(Part = #part{awaited = Awaited}) when Awaited =/= #{} ->
    Part;
report(Part = #part{links = Links, peers = Peers, problems = Last}) ->
    View = heal_state:view(Part),
    Refused = [{Why, {Node, Info}} || {Node, #link{state = {refused, Why, Info}}} <- maps:to_list(Links)],
    Failed = [{Why, {Node, none}} || {Node, #peer{failed = Why, at = {Of, _}}} <- maps:to_list(Peers), Why =/= none, Of =/= View],
    case maps:from_list(lists:reverse(lists:sort(Refused ++ Failed ++ full(Part) ++ heal_storing:broken(Part)))) of
        Last -> Part;
        Problems -> heal_state:add({problems, Problems}, heal_state:add({keep, reported, Problems}, Part#part{problems = Problems}))
    end.

%% The part has no room for all programs that this node relies on.
full(Part = #part{programs = Programs, node = Node}) ->
    #half{programs = Known} = heal_state:half(Part),
    [{?STORE_FULL, {Node, none}} || map_size(Known) >= ?MAX_PROGRAMS, map_size(Programs) > map_size(Known)].
