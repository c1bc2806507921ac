%% @private The view that a node is in: its primary's members, and what a backup does when its primary is gone.
%%
%% A primary sends its members entries. A member that misses one wants a snapshot. A member that has followed a view *joins* it,
%% with the edits that its home lacks. When all have joined or are given up, the view is *settled*: the losers of the exchange
%% that started it are notified.
-module(heal_view).

-include("heal_part.hrl").

-export([resume/2, act/1, welcome/1, continue/1, is_settling/1, members/1, lead_alone/1, follow_merge/5, start/5]).
-export([heard/3, snapshot/3, difference/3, want/2, wanted/3, joined/3, join_again/2, settled/3, broadcast/3]).

%% ---- Starting ----

%% Goes on with the replica that this node had. A primary may have made an edit that nobody knows of, so it starts a view. If the half may be
%% that of another position, differences would be wrong: a primary sends snapshots, and another node leads a part of its own names.
-spec resume(IsExact :: boolean(), #part{}) -> #part{}.
resume(IsExact, Part = #part{replica = Replica}) ->
    Half = heal_state:half(Part),
    Homes = homes(Half, Part),
    %% It has announced the latest view that it was to lead, perhaps without a position in it.
    IsPrimary = heal_state:primary(Part) =:= heal_state:life(Part),
    case {IsPrimary, {heal_replica:position(Replica), heal_replica:led(Replica)}, heal_home:conflicts(Half, Part)} of
        {true, {{{_, 1}, 0}, 1}, _} -> heal_orders:make_each(heal_home:differences(Part), 0, Part);
        {true, _, []} -> exact(IsExact, lead(heal_home:restrict([heal_state:life(Part) | lives(Homes)], Part), Homes, Part));
        %% The notice of an exchange that has given a name away is lost with the registry: another exchange decides.
        {_, _, [_ | _]} -> lead_alone(Part);
        {false, _, []} ->
            {Primary, _} = heal_state:primary(Part),
            case IsExact andalso heal_peers:is_in_setting(Primary, Part) of
                true -> heal_home:show_all(Part#part{limbo = heal_state:until_followed(Part)});
                false -> lead_alone(Part)
            end
    end.

%% Keeps what differences are made from only if the half is that of the position.
exact(true, Part) -> Part;
exact(false, Part) -> Part#part{base = none}.

lives(Members) ->
    [Life || #member{life = Life} <- maps:values(Members)].

%% The nodes of the setting that answer for the names of a half, as members that may follow.
homes(#half{names = Names}, Part) ->
    Homes = [Home || #row{home = Home} <- maps:values(Names), Home =/= heal_state:life(Part)],
    maps:from_list([{Node, #member{life = Life, was = heal_state:view(Part)}}
                    || Life = {Node, _} <- lists:usort(Homes), heal_peers:is_in_setting(Node, Part)]).

%% ---- Acting on announcements ----

%% Does what follows from the announcements for this view: for its members, or for its primary.
-spec act(#part{}) -> #part{}.
act(Part = #part{heal = #open{}}) ->
    Part;
act(Part) ->
    Acted = case heal_state:is_primary(Part) of
        true -> Part;
        false -> backup(Part)
    end,
    case heal_state:is_primary(Acted) of
        true -> settle(regarded(Acted, gone(followers(Acted))));
        false -> Acted
    end.

%% Announces the members of this primary, if they have changed.
regarded(#part{members = Before}, Part = #part{members = Members}) ->
    case maps:keys(Before) =:= maps:keys(Members) of
        true -> Part;
        false -> viewed(heal_peers:announce(Part))
    end.

%% Returns the nodes of this node's part, as far as it knows.
-spec members(#part{}) -> [node()].
members(Part = #part{node = Node, members = Members, peers = Peers}) ->
    {Primary, _} = heal_state:primary(Part),
    case Peers of
        _ when Primary =:= Node -> lists:sort([Node | maps:keys(Members)]);
        #{Primary := #peer{members = Others}} -> lists:usort([Node, Primary | Others]);
        _ -> lists:sort([Node, Primary])
    end.

%% ---- The primary ----

%% A node that follows an earlier view of this one gets a snapshot, and so does one that follows this view and isn't a member. A large
%% snapshot takes a while to send, so the messages that have arrived go before each.
followers(Part = #part{is_welcoming = true}) ->
    Part;
followers(Part) ->
    case behind(Part) of
        [] -> Part;
        _ -> heal_state:later(welcome, Part#part{is_welcoming = true})
    end.

behind(Part = #part{peers = Peers}) ->
    [Node || {Node, Peer} <- maps:to_list(Peers), is_behind(Node, Peer, Part), not has_snapshot(Node, Part), has_room(Node, Part),
             not heal_peers:is_silent(Peer, Part)].

%% Sends the next snapshot. That of an exchange has its losers, which take a while to list.
-spec welcome(#part{}) -> #part{}.
welcome(Part = #part{heal = Heal, losers = Losers}) ->
    Next = Part#part{is_welcoming = false},
    case not is_record(Heal, open) andalso heal_state:is_primary(Part) andalso behind(Part) of
        [Node | _] when is_list(Losers) -> regarded(Part, welcome(Node, Next));
        [_ | _] -> Next#part{losers = heal_losers:list(Losers)};
        _ -> Next
    end.

%% Returns whether a node's connection has room: for a snapshot after a pause, for what differs at once.
has_room(Node, Part) ->
    not heal_congestion:is_full(Node, Part)
        orelse not heal_congestion:is_refusing(Node, Part) andalso heal_difference:between(Node, Part) =/= none.

is_behind(Node, #peer{life = Of, at = {{Life, Number}, _}}, Part = #part{members = Members}) ->
    case {heal_state:view(Part), Members} of
        {_, #{Node := #member{life = Of, is_lagging = true}}} -> true;
        {{Life, Number}, _} -> not is_map_key(Node, Members);
        {{Life, Own}, _} -> Number < Own;
        _ -> false
    end.

%% Returns whether a node got a snapshot, and has yet to follow.
has_snapshot(Node, #part{members = Members}) ->
    case Members of
        #{Node := #member{is_joined = false, is_lagging = false}} -> true;
        _ -> false
    end.

%% Drops the members that are gone, follow another view, or don't join in time, and their names.
gone(Part = #part{members = Members}) ->
    Gone = [Node || {Node, Member} <- maps:to_list(Members), is_gone(Node, Member, Part)],
    Rest = Part#part{members = maps:without(Gone, Members)},
    case Gone of
        [] -> Part;
        _ -> drop_strangers(Rest)
    end.

is_gone(Node, #member{life = Life, was = Was, is_joined = IsJoined}, Part = #part{peers = Peers, settle_by = By, now = Now}) ->
    View = heal_state:view(Part),
    case Peers of
        #{Node := Peer = #peer{life = Life, at = {View, _}}} ->
            not IsJoined andalso is_integer(By) andalso Now >= By andalso heal_peers:is_silent(Peer, Part);
        #{Node := #peer{life = Life, at = {Was, _}}} -> IsJoined orelse By =:= none orelse Now >= By;
        #{Node := #peer{}} -> true;
        _ -> IsJoined orelse By =:= none orelse Now >= By orelse not heal_peers:is_connected(Node, Part)
    end.

%% Unregisters all names whose home isn't a member.
drop_strangers(Part = #part{members = Members}) ->
    Homes = maps:from_keys([heal_state:life(Part) | lives(Members)], home),
    Names = (heal_state:half(Part))#half.names,
    Strange = [Name || {Name, #row{home = Home}} <- maps:to_list(Names), not is_map_key(Home, Homes)],
    heal_orders:make_all([{unregister, Name} || Name <- Strange], Part).

%% All have joined, and the view is settled next: callers that wait go first, and the others don't wait for the notices.
settle(Part = #part{is_settling = IsDue}) ->
    case not IsDue andalso is_settling(Part) of
        true -> heal_state:later(settle, Part#part{is_settling = true});
        false -> Part
    end.

%% Returns whether the view of this primary is settled next.
-spec is_settling(#part{}) -> boolean().
is_settling(#part{settle_by = SettleBy, members = Members}) ->
    SettleBy =/= none andalso [] =:= [pending || #member{is_joined = false} <- maps:values(Members)].

%% Settles the view.
-spec continue(#part{}) -> #part{}.
continue(Due = #part{members = Members}) ->
    Part = Due#part{is_settling = false},
    case is_settling(Part) andalso heal_state:is_primary(Part) of
        true ->
            Dropped = drop_strangers(Part),
            Sent = heal_state:send_all(maps:keys(Members), {settled, heal_state:at(Dropped)}, Dropped),
            {Edits, Settled} = heal_home:settle(Sent#part{settle_by = none, losers = [], base = none}),
            heal_orders:make_each(Edits, element(2, heal_state:at(Settled)), Settled);
        false ->
            Part
    end.

%% Sends entries to all members that miss none. On nodes other than these nobody waits for them, nor needs the request.
-spec broadcast({edit, heal_replica:position(), [heal_replica:edit()], By :: none | {node(), pos_integer()}, heal_edits:answer()},
                Awaited :: [node()], #part{}) -> #part{}.
broadcast(_Entries, _Awaited, Part = #part{members = Members}) when Members =:= #{} ->
    Part;
broadcast(Entries = {edit, At, Edits, _By, _Answer}, Awaited, Part = #part{members = Members}) ->
    Nodes = [Node || {Node, #member{is_lagging = false}} <- maps:to_list(Members)],
    {Now, Soon} = lists:partition(fun(Node) -> lists:member(Node, Awaited) end, Nodes),
    Sent = heal_state:send_all(Now, Entries, Part),
    case Soon of
        [] -> Sent;
        _ -> heal_state:add({post, Soon, {edit, At, Edits, none, ok}}, Sent)
    end.

%% A node wants a snapshot of this view. It gets one once no exchange is open and its connection has room.
-spec wanted(node(), heal_replica:view(), #part{}) -> #part{}.
wanted(Node, View, Part = #part{heal = Heal, members = Members, peers = Peers}) ->
    case heal_state:is_primary(Part) andalso heal_state:view(Part) =:= View andalso {Members, Peers} of
        {#{Node := Member}, #{Node := _}} ->
            Lagging = Part#part{members = Members#{Node := Member#member{is_lagging = true}}},
            heal_peers:heard_of(Node, heal_difference:wanted(Node, Lagging));
        {_, #{Node := _}} when not is_record(Heal, open) ->
            Wanted = heal_difference:wanted(Node, Part),
            case has_room(Node, Wanted) of
                true -> regarded(Part, welcome(Node, Wanted));
                false -> Wanted
            end;
        _ ->
            Part
    end.

%% Makes a node a member, unless it is one, and sends it a snapshot.
welcome(Node, Part = #part{members = Members, peers = Peers, settle_by = SettleBy}) ->
    #{Node := #peer{life = Life, at = {Was, _}}} = Peers,
    case Members of
        #{Node := Member = #member{life = Life}} ->
            Sent = send_snapshot(Node, Part#part{members = Members#{Node := Member#member{is_lagging = false}}}),
            heal_peers:announce_to(Node, Sent);
        _ ->
            By = case SettleBy of none -> heal_state:until_followed(Part); _ -> SettleBy end,
            Added = Members#{Node => #member{life = Life, was = Was}},
            send_snapshot(Node, replaced(Node, Members, Part#part{members = Added, settle_by = By}))
    end.

%% A member has started again: the names of its earlier life are dropped.
replaced(Node, Before, Part) when is_map_key(Node, Before) -> drop_strangers(Part);
replaced(_Node, _Before, Part) -> Part.

send_snapshot(Node, Part = #part{replica = Replica, losers = Losers}) ->
    All = heal_losers:list(Losers),
    Body = case heal_difference:between(Node, Part) of
        none -> {snapshot, {heal_replica:snapshot(Replica), All}};
        Difference -> {difference, {Difference, All}}
    end,
    heal_state:send(Node, Body, taken(Node, heal_difference:given(Node, Part#part{losers = All}))).

%% A member hears which of its requests were taken before this view: the others aren't made.
taken(Node, Part = #part{members = Members}) ->
    case Members of
        #{Node := #member{is_joined = false, taken = Last}} when Last =/= none ->
            heal_state:send(Node, {taken, heal_state:view(Part), Last}, Part);
        _ ->
            Part
    end.

%% A node has followed this view. Its edits are those that its home has and the view lacks.
-spec joined(node(), {pos_integer(), heal_replica:position(), non_neg_integer(), [heal_edits:edit()]}, #part{}) -> #part{}.
joined(Node, {Seq, At = {View, Operation}, Requests, Edits}, Part) ->
    case {heal_peers:moved(Node, Seq, At, Part), heal_state:is_primary(Part) andalso heal_state:view(Part)} of
        {false, _} -> Part;
        {{true, Moved}, View} -> regarded(Moved, join(Node, Requests, Edits, Operation, Moved));
        {{true, Moved}, _} -> Moved
    end.

join(Node, Requests, Edits, Operation, Part = #part{members = Members, peers = Peers, settle_by = SettleBy}) ->
    #{Node := #peer{life = Life}} = Peers,
    Member = case Members of
        #{Node := Known = #member{life = Life, taken = none}} -> Known#member{is_joined = true, taken = Requests};
        #{Node := Known = #member{life = Life, taken = Taken}} -> Known#member{is_joined = true, taken = max(Taken, Requests)};
        _ -> #member{life = Life, was = none, is_joined = true, taken = Requests}
    end,
    Made = heal_orders:make_each(Edits, Operation, renewed(Node, Members, Part#part{members = Members#{Node => Member}})),
    case SettleBy of
        none -> heal_state:send(Node, {settled, heal_state:at(Made)}, Made);
        _ -> Made
    end.

renewed(Node, Before, Part = #part{members = Members}) ->
    case {Before, Members} of
        {#{Node := #member{life = Life}}, #{Node := #member{life = Life}}} -> Part;
        _ -> replaced(Node, Before, Part)
    end.

%% ---- Leading ----

%% Starts a view with this half, whose members are to follow it.
lead(Half, Members, Part) ->
    lead(Half, Members, [], Part).

lead(Half, Members, Losers, Part = #part{replica = Replica}) ->
    {ok, Led} = heal_replica:change(heal_replica:position(Replica), Half, Replica),
    start(Led, Members, none, heal_home:plan(Losers, Half, unknown, Part), Part).

%% Starts the view of a replica that leads, with what its half changes on this node. Callers that wait receive their answers before members
%% get a snapshot (followers/1), which takes a while with a large table. One member has the half already.
-spec start(heal_replica:replica(), #{node() => #member{}}, Has :: none | node(), heal_home:plan(), #part{}) -> #part{}.
start(Led, Members, Has, Plan, Part = #part{peers = Peers, links = Links}) ->
    Pending = maps:map(fun(Node, Member) -> Member#member{is_lagging = Node =/= Has} end, Members),
    %% A registry that fails before its position is kept leads no view of this number again: others may follow this one.
    Numbered = heal_state:add({keep, led, heal_replica:led(Led)}, Part),
    Next = Numbered#part{replica = Led, members = Pending, limbo = none, losers = heal_home:losers(Plan), dropped = #{}, since = 0,
                         base = heal_difference:base(Members, Has, Part)},
    Moved = Next#part{settle_by = heal_state:until_followed(Next)},
    %% Callers read their own writes, so they are answered after the table has them.
    Swapped = heal_entries:restart(heal_home:swap(Plan, Moved)),
    Restored = heal_orders:make_each(heal_home:differences(Plan, Swapped), 0, Swapped),
    Resumed = heal_edits:resume(heal_peers:arrived(Restored)),
    %% A member that heard of the view before its snapshot would take it for another part. One that hasn't announced itself yet gets the
    %% snapshot when it does.
    Later = [Node || Node <- maps:keys(Members), Node =/= Has, is_map_key(Node, Peers)],
    viewed(lists:foldl(fun heal_peers:announce_to/2, Resumed, lists:sort(maps:keys(Links)) -- Later)).

viewed(Part) ->
    heal_state:add({view, heal_state:view(Part), members(Part)}, Part).

%% Starts a view with the names of this node alone. Losers of an exchange that wait for their notice still receive it.
-spec lead_alone(#part{}) -> #part{}.
lead_alone(Part) ->
    lead(heal_home:restrict([heal_state:life(Part)], Part), #{}, heal_home:waiting(Part), Part).

%% ---- The backup ----

backup(Part = #part{limbo = Limbo, now = Now}) ->
    case primary(Part) of
        here -> caught_up(Part#part{limbo = none});
        _ when is_integer(Limbo), Now >= Limbo -> lead_alone(Part);
        gone -> case is_expected(Part) of true -> Part; false -> successor(Part) end;
        moved when Limbo =:= none -> Part#part{limbo = heal_state:until_followed(Part)};
        moved -> Part
    end.

%% Returns whether the node waits for a snapshot of another view, whose primary is there and has it as a member. A primary that has dropped
%% it sends none.
is_expected(Part = #part{gap = View = {Primary = {_, _}, _}, peers = Peers}) ->
    Peer = announced(Primary, Peers),
    is_member(View, Peer, Part) =:= true andalso not heal_peers:is_silent(Peer, Part);
is_expected(_Part) ->
    false.

%% Returns whether this node's primary is in its view, may be moving to another one, or is gone.
primary(Part = #part{peers = Peers, links = Links}) ->
    {Life = {Node, _}, _} = View = heal_state:view(Part),
    case {Peers, Links} of
        {#{Node := Peer = #peer{life = Life, at = {View, _}}}, _} ->
            case heal_peers:is_silent(Peer, Part) of true -> gone; false -> here end;
        {#{Node := #peer{life = Life}}, _} -> case next_view(Part) of left_out -> gone; _ -> moved end;
        {#{Node := _}, _} -> gone;
        {_, #{Node := #link{state = unknown}}} -> moved;
        _ -> gone
    end.

%% The primary of this node's view is in another one now. Returns whether this node is a member of that one, as its primary has announced. A
%% primary that starts another view takes the nodes in that follow its earlier one.
next_view(Part = #part{peers = Peers, checked = Checked}) ->
    {Before, _} = Own = heal_state:view(Part),
    case announced(Before, Peers) of
        #peer{at = {View = {Primary, _}, _}, seq = Seq} when View =/= Own, Seq > Checked ->
            case {is_member(View, announced(Primary, Peers), Part), Primary} of
                {true, _} -> {a_member, View};
                {false, Before} -> unknown;
                {false, _} -> left_out;
                {unknown, _} -> unknown
            end;
        _ -> unknown
    end.

is_member(View, #peer{at = {View, _}, members = Members}, #part{node = Self}) -> lists:member(Self, Members);
is_member(_View, _Announced, _Part) -> unknown.

announced(Life = {Node, _}, Peers) ->
    case Peers of
        #{Node := Peer = #peer{life = Life}} -> Peer;
        _ -> none
    end.

%% Takes what a node has announced. A primary sends snapshots of a view before it announces that view, so this node has missed one if it
%% isn't in the view. A registry that starts sends one when it hears from this node.
-spec heard(node(), heal_peers:here(), #part{}) -> #part{}.
heard(Node, Here, Part = #part{gap = Gap}) ->
    Heard = regarded_by(Part, prompted(Node, started(Node, Here, heal_peers:here(Node, Here, Part)))),
    case missed(Heard) of
        View when View =:= none; View =:= Gap; map_get(is_first, Here) -> Heard;
        View -> want(View, Heard#part{gap = View})
    end.

%% The primary of this node has announced other members.
regarded_by(Before, Part) ->
    case heal_state:is_primary(Part) orelse members(Before) =:= members(Part) of
        true -> Part;
        false -> viewed(Part)
    end.

%% A registry that starts has ignored the snapshot that was on its way to its node: it gets another one. If the node is a primary it follows
%% none, and is no member any more.
started(Node, #{is_first := true, seq := Seq}, Part = #part{members = Members, peers = Peers}) ->
    case {Members, Peers} of
        {#{Node := Member = #member{is_joined = false, was = Was}}, #{Node := Peer = #peer{seq = Seq, at = {Was, _}}}} ->
            Next = case heal_peers:is_primary(Peer) of
                true -> Member#member{was = none};
                false -> Member#member{is_lagging = true}
            end,
            Part#part{members = Members#{Node := Next}};
        _ ->
            Part
    end;
started(_Node, _Here, Part) ->
    Part.

%% A node follows this primary's view, and hasn't joined it: its message may be lost. It joins again when it hears that the view isn't
%% settled.
prompted(Node, Part = #part{members = Members, peers = Peers}) ->
    case {heal_state:view(Part), Members, Peers} of
        {View, #{Node := #member{is_joined = false, is_lagging = false}}, #{Node := #peer{at = {View, _}}}} ->
            heal_peers:announce_to(Node, Part);
        _ ->
            Part
    end.

%% The view whose snapshot this node has missed.
missed(Part) ->
    case not heal_state:is_primary(Part) andalso next_view(Part) of
        {a_member, View} -> View;
        _ -> none
    end.

%% Has a primary send a snapshot of its view. With many names that takes a while.
-spec want(heal_replica:view(), #part{}) -> #part{}.
want(View = {{Primary, _}, _}, Part = #part{now = Now}) ->
    heal_state:send(Primary, {want, View}, Part#part{next_want = Now + heal_state:longer(heal_state:count(Part))}).

%% The smallest node that is left of the part leads it. The others wait for its snapshot.
successor(Part = #part{node = Node, limbo = Limbo}) ->
    View = heal_state:view(Part),
    Left = maps:filter(fun(_, Peer) -> not heal_peers:is_silent(Peer, Part) end, heal_peers:followers(Part)),
    Members = maps:map(fun(_, #peer{life = Life}) -> #member{life = Life, was = View} end, Left),
    Lives = [heal_state:life(Part) | lives(Members)],
    case {lists:min([Node | maps:keys(Left)]), heal_home:conflicts(heal_state:half(Part), Part)} of
        {Node, []} -> lead(heal_home:restrict(Lives, Part), Members, Part);
        {Node, _} -> lead_alone(Part);
        _ when Limbo =:= none -> Part#part{limbo = heal_state:until_followed(Part)};
        _ -> Part
    end.

%% The primary has made entries that this node lacks, hasn't heard that it follows, or lacks what its home has.
caught_up(Part = #part{peers = Peers, checked = Checked, now = Now, next_want = Next}) ->
    View = {{Primary, _}, _} = heal_state:view(Part),
    {_, Operation} = heal_state:at(Part),
    #{Primary := #peer{seq = Seq, at = At = {_, Last}, is_settled = IsSettled}} = Peers,
    Noted = Part#part{checked = Seq},
    if
        Seq =:= Checked -> Part;
        Last > Operation, Now < Next -> Noted;
        Last > Operation -> want(View, Noted);
        IsSettled -> rejoin(true, settled(Primary, At, Noted));
        true -> rejoin(false, Noted)
    end.

%% A message that is lost is made good. Before the view is settled its primary waits for one also where it lacks nothing. With many names
%% the comparison takes long, so it is made less often.
rejoin(_IsSettled, Part = #part{now = Now, next_check = Next}) when Now < Next ->
    Part;
rejoin(IsSettled, Part) ->
    Compared = compared(Part),
    case heal_home:differences(Compared) of
        [] when IsSettled -> Compared;
        Edits -> join_with(Edits, Compared)
    end.

%% Notes that this node has just compared its registrations with its half.
compared(Part = #part{now = Now}) ->
    Part#part{next_check = Now + heal_state:longer(heal_state:count(Part))}.

join_with(Edits, Part = #part{seq = Seq, requests = Requests}) ->
    {Primary, _} = heal_state:primary(Part),
    heal_state:send(Primary, {finished, Seq + 1, heal_state:at(Part), Requests, Edits}, Part#part{seq = Seq + 1}).

%% The connection to a node takes messages again. It may have refused that this node wants a snapshot, or that it follows.
-spec join_again(node(), #part{}) -> #part{}.
join_again(Node, Part = #part{gap = Gap}) ->
    case {missed(Part), Gap, heal_state:view(Part)} of
        {Next = {{Node, _}, _}, _, _} -> want(Next, Part);
        {none, Next = {{Node, _}, _}, _} -> want(Next, Part);
        {none, none, {{Node, _}, _}} -> join_with(heal_home:differences(Part), Part);
        {none, _, View = {{Node, _}, _}} -> want(View, Part);
        _ -> Part
    end.

%% The primary has settled its view at this position.
-spec settled(node(), heal_replica:position(), #part{}) -> #part{}.
settled(Node, {View, Operation}, Part) ->
    case heal_state:at(Part) of
        {View = {{Node, _}, _}, Own} when Own >= Operation -> restored(heal_home:settle(Part));
        _ -> Part
    end.

%% Losers whose names are free have them again.
restored({[], Part}) -> Part;
restored({Edits, Part}) -> join_with(Edits, Part).

%% A primary has sent a snapshot.
-spec snapshot(node(), {heal_replica:snapshot(), [heal_losers:loser()]}, #part{}) -> #part{}.
snapshot(Node, {Snapshot = {At, _}, Losers}, Part) ->
    Follow = fun() -> follow(heal_replica:compact(Snapshot, Part#part.replica), unknown, Losers, Node, Part) end,
    sent(Node, At, Follow, Part).

%% A primary has sent how its half differs from the one that this node had. A node that had another one announces its position, and wants to
%% follow.
-spec difference(node(), {heal_difference:difference(), [heal_losers:loser()]}, #part{}) -> #part{}.
difference(Node, {Difference, Losers}, Part) ->
    At = {View, _} = heal_difference:position(Difference),
    Follow = fun() ->
        case heal_difference:applied(Difference, Part) of
            {Half, Changes} -> follow({At, Half}, Changes, Losers, Node, Part);
            none -> want(View, heal_peers:announce_to(Node, Part#part{gap = View}))
        end
    end,
    sent(Node, At, Follow, Part).

%% A node that is a primary joins another one by an exchange alone. One that has what was sent joins again: its primary doesn't know so.
sent(Node, At = {{Life, _}, _}, Follow, Part = #part{peers = Peers}) ->
    case Peers of
        #{Node := #peer{life = Life}} ->
            case {heal_state:is_primary(Part), is_next(Node, At, Part), heal_state:at(Part)} of
                {false, true, _} -> Follow();
                {false, false, {View, _}} when View =:= element(1, At) -> join_with(heal_home:differences(Part), Part);
                _ -> Part
            end;
        _ ->
            Part
    end.

%% A node returns to a view that it has left if it wants a snapshot of it.
is_next(Node, {View = {{_, Incarnation}, Number}, Operation}, Part = #part{followed = Followed, gap = Gap}) ->
    case {heal_state:at(Part), Followed} of
        {{View, Own}, _} -> Operation > Own;
        _ when Gap =:= View -> true;
        {_, #{Node := {Incarnation, Last}}} -> Number > Last;
        _ -> true
    end.

%% Follows a snapshot, unless it gives a name of this node to another process. Then an exchange is to decide.
-spec follow(heal_replica:snapshot(), heal_home:changes() | unknown, [heal_losers:loser()], node(), #part{}) -> #part{}.
follow(Snapshot = {{View, _}, Half}, Changes, Losers, Node, Part) ->
    {Lost, Continue} = case heal_state:view(Part) of
        View -> {Losers ++ heal_home:waiting(Part), fun heal_entries:skipped/1};
        _ -> {Losers, fun entered/1}
    end,
    taken(Snapshot, heal_home:plan(Lost, Half, Changes, Part), Continue, noted(View, Node, Part)).

%% Follows the view of another primary, which begins with the outcome of an exchange.
-spec follow_merge(heal_replica:view(), #half{}, heal_home:plan(), node(), #part{}) -> #part{}.
follow_merge(View, Half, Plan, Node, Part) ->
    taken({{View, 0}, Half}, heal_home:current(Plan, Half, Part), fun entered/1, noted(View, Node, Part)).

entered(Part = #part{peers = Peers}) ->
    Known = case announced(heal_state:primary(Part), Peers) of #peer{seq = Seq} -> Seq; none -> 0 end,
    viewed(heal_entries:restart(Part#part{checked = Known})).

noted({{_, Incarnation}, Number}, Node, Part = #part{followed = Followed}) ->
    Part#part{followed = Followed#{Node => {Incarnation, Number}}}.

taken(Snapshot, Plan, Continue, Part = #part{replica = Replica}) ->
    case heal_home:conflicts(Plan) of
        [] ->
            {ok, Following} = heal_replica:follow(Snapshot, Replica),
            Moved = Part#part{replica = Following, members = #{}, settle_by = none, losers = [], limbo = none, base = none, next_want = 0,
                              granted = #{}},
            Swapped = Continue(heal_home:swap(Plan, Moved)),
            heal_peers:announce(join_with(heal_home:differences(Plan, Swapped), compared(Swapped)));
        _ ->
            lead_alone(Part)
    end.
