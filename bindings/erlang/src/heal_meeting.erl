%% @private How two primaries that are connected exchange, so that their parts become one.
%%
%% The smaller node queries the other one. That of the larger part leads, and of two parts alike the smaller node: fewer nodes have another
%% primary then. The leader queries the other's greatest number, both offer the names of their parts, judge every clash, and send their
%% lists of withdrawn names. The leader then starts a view with the merge. The other node follows it when it hears so, and until then keeps
%% its own table: an exchange that is abandoned changes nothing. All other nodes get a snapshot, or what differs.
-module(heal_meeting).

-include("heal_part.hrl").

-export([meet/1, message/3, continue/2, touched/2, broken/1, announced/3, failed_with/2, expired/1, withdraw/2, is_idle/1, name/1]).
-export_type([member/0, outcome/0, merge/0]).

-type member() :: {heal_replica:life(), Number :: non_neg_integer()}.
%% What an exchange has come to: what heal_exchange:finish/3 returned, and the names that the other node has withdrawn.
-type outcome() :: {{Clashes :: non_neg_integer(), [heal:loss()], heal_exchange:rulings()}, [{heal:name(), heal:values()}],
                    Lacking :: [heal:name()], Withdrawn :: [heal:name()]}.
%% The merge, its losers, how its rows differ, and what is reported of it.
-type merge() :: {#half{}, heal_losers:losers(), heal_home:changes() | unknown, Facts :: #{atom() => term()}}.

%% The refusal of a program that there is no room for.
-define(STORE_FULL, 43).

%% ---- Who exchanges ----

%% A primary queries the smallest greater one that is connected, unless the last attempt has just failed.
-spec meet(#part{}) -> #part{}.
meet(Part = #part{heal = Heal}) when Heal =/= idle ->
    case is_over(Heal, Part) of
        true -> meet((cancel(Part))#part{heal = idle});
        false -> Part
    end;
meet(Part = #part{heal = idle, prepared = #prepared{}}) ->
    meet(Part#part{prepared = none});
meet(Part = #part{heal = idle, settle_by = none, limbo = none}) ->
    case heal_state:is_primary(Part) of
        true -> meet_one(overdue(invite(Part)));
        false -> Part#part{declined = #{}}
    end;
meet(Part) ->
    Part.

%% The other node follows another one by now, and has given the exchange up.
is_over(Heal, #part{peers = Peers}) ->
    Node = with(Heal),
    is_map_key(Node, Peers) andalso not heal_peers:is_primary(map_get(Node, Peers)).

%% The other node of an exchange.
with({_, #asking{node = Node}}) -> Node;
with(#open{node = Node}) -> Node.

%% Invites the primaries whose query this one has declined, now that it is ready. If the message is lost, they query again after a tick.
invite(Part = #part{declined = Declined}) when Declined =:= #{} ->
    Part;
invite(Part = #part{declined = Declined, links = Links, peers = Peers}) ->
    Left = maps:with(maps:keys(Links), Declined),
    Ready = maps:filter(fun(Node, {_, Members}) -> has_met(Node, Members, Part) end, maps:with(maps:keys(Peers), Left)),
    Send = fun(Node, {Reference, _}, Sum) -> heal_state:send(Node, {ready, Reference}, Sum) end,
    maps:fold(Send, Part#part{declined = maps:without(maps:keys(Ready), Left)}, Ready).

has_met(Node, Members, Part = #part{peers = Peers}) ->
    heal_peers:has_met(Members, maps:get(Node, Peers), Part).

meet_one(Part = #part{node = Self, now = Now}) ->
    case [Node || {Node, Peer = #peer{retry = Retry, members = Members}} <- others(Part), Node > Self, Retry =< Now,
                  heal_peers:has_met(Members, Peer, Part)] of
        [] -> Part;
        Nodes -> ask(lists:min(Nodes), Part)
    end.

%% The primaries of other parts.
others(Part = #part{peers = Peers}) ->
    View = heal_state:view(Part),
    [Entry || Entry = {_, Peer = #peer{at = {Of, _}}} <- maps:to_list(Peers), Of =/= View,
              heal_peers:is_primary(Peer), not heal_peers:is_silent(Peer, Part)].

%% A smaller primary is to query this one. If it doesn't for a long time, it hangs.
overdue(Part = #part{node = Self, now = Now, exchange_timeout = Timeout}) ->
    Due = fun
        ({Node, #peer{retry = 0, failed = Failed}}, Sum) -> heal_peers:retry(Node, Failed, Timeout, Sum);
        ({Node, #peer{retry = Retry, failed = none}}, Sum) when Now >= Retry -> heal_peers:retry(Node, silent, Timeout, Sum);
        (_Entry, Sum) -> Sum
    end,
    lists:foldl(Due, Part, [Entry || Entry = {Node, _} <- others(Part), Node < Self]).

ask(Node, Part = #part{now = Now, exchange_timeout = Timeout, requests = Last}) ->
    Reference = {heal_state:life(Part), Last + 1},
    Asking = #asking{node = Node, reference = Reference, deadline = Now + Timeout div 2 + 1 + most(Part)},
    Asked = Part#part{requests = Last + 1, heal = {asking, Asking}},
    heal_state:send(Node, {ask, Reference, members(Part)}, Asked).

%% Making an offer takes longer the more names there are, and the other node may have as many as this one's limit.
most(#part{replica = Replica}) -> heal_state:longer(heal_replica:limit(Replica)).

%% This part's nodes and their numbers.
members(Part = #part{number = Number, members = Members, peers = Peers}) ->
    [{heal_state:life(Part), Number}
     | [{Life, Of} || {Node, #member{life = Life}} <- maps:to_list(Members), #{Node := #peer{number = Of}} <- [Peers]]].

%% Returns whether this node waits for nothing: no exchange, no view, no node and no member.
-spec is_idle(#part{}) -> boolean().
is_idle(#part{heal = Heal, limbo = Limbo, awaited = Awaited, settle_by = SettleBy}) ->
    Heal =:= idle andalso Limbo =:= none andalso SettleBy =:= none andalso Awaited =:= #{}.

%% Returns how this node is linked with others, as heal_registry:status/0 shows it.
-spec name(#part{}) -> apart | asking | open | joined.
name(#part{heal = #open{stage = {done, _, _}}}) -> joined;
name(#part{heal = #open{}}) -> open;
name(#part{heal = {_, #asking{}}}) -> asking;
name(Part) -> case heal_view:members(Part) of [_] -> apart; _ -> joined end.

%% ---- Messages ----

%% Takes a message of an exchange. One that fits no open exchange is stale, and changes nothing.
-spec message(node(), Body :: term(), #part{}) -> #part{}.
message(Node, {ask, Reference, Members}, Part = #part{node = Self, peers = Peers}) when Node < Self ->
    Nodes = [Of || {{Of, _}, _} <- Members],
    case {is_map_key(Node, Peers) andalso heal_peers:is_primary(map_get(Node, Peers)), heal_peers:turned_down(Node, Part)} of
        {true, _} -> asked(Node, Reference, Members, Nodes, Part);
        {false, {true, Told}} -> Told;
        %% It has heard of this node, and not the other way round, or not that it leads a part now.
        {false, false} -> heal_peers:hurry(Node, busy(Node, Reference, Nodes, Part))
    end;
message(Node, {turn, Reference, Members}, Part = #part{heal = {asking, #asking{node = Node, reference = Reference}}}) ->
    engage(Node, Reference, Members, Part#part{heal = idle});
message(Node, {hello, Reference, Greatest, Members}, Part = #part{heal = {asking, #asking{node = Node, reference = Reference}}}) ->
    %% Edits that have come meanwhile go first: they wait once the exchange is open.
    heal_state:later({begin_with, Reference, Greatest, Members}, ready_offer(a, [], Part));
message(Node, {propose, Number, Seed, Members, Reference},
        Part = #part{heal = {engaged, #asking{node = Node, reference = Reference}}}) ->
    accept(Node, Number, Seed, Members, fun(Open) -> Open end, Part#part{heal = idle});
message(Node, {Kind, Reference}, Part = #part{heal = {asking, #asking{node = Node, reference = Reference}}})
        when Kind =:= busy; Kind =:= cancel ->
    heal_peers:retry(Node, none, heal_state:tick(Part), Part#part{heal = idle});
message(Node, {ready, _Reference}, Part = #part{node = Self, peers = Peers}) when Self < Node ->
    case Peers of
        #{Node := Peer = #peer{failed = none}} -> Part#part{peers = Peers#{Node := Peer#peer{retry = 0}}};
        _ -> Part
    end;
message(Node, {cancel, Reference}, Part = #part{heal = {engaged, #asking{node = Node, reference = Reference}}}) ->
    Part#part{heal = idle};
message(Node, {offer, Number, Seed, Offer, Reference},
        Part = #part{heal = {engaged, #asking{node = Node, reference = Reference}}}) ->
    %% The leader has an earlier version, which makes no proposal. Both nodes judge at the same time.
    Judge = fun(Open) -> heal_state:continue({hear, Number, Offer}, Open) end,
    accept(Node, Number, Seed, element(4, Offer), Judge, Part#part{heal = idle});
message(Node, {offer, Number, _Seed, Offer, _Reference}, Part = #part{heal = Open = #open{node = Node, number = Number, others = none}}) ->
    hear(Offer, Open, Part);
message(Node, {list, Number, List}, Part = #part{heal = Open = #open{node = Node, number = Number, side = a, stage = listed}}) ->
    finish(List, Open, Part);
message(Node, {list, Number, List}, Part = #part{heal = Open = #open{node = Node, number = Number, side = b, stage = offered}})
        when Open#open.others =/= none ->
    %% The other node goes on with the list, and both compute the merge at the same time.
    heal_state:continue({finish, Number, List}, close(Part));
message(Node, {finished, Number, View}, Part = #part{heal = Open = #open{node = Node, number = Number, stage = {done, _, _}}}) ->
    follow(View, Open, Part);
message(Node, {finished, Number, View}, Part = #part{heal = Open = #open{node = Node, number = Number, side = b, stage = Stage}})
        when element(1, Stage) =:= finished; element(1, Stage) =:= merged ->
    Part#part{heal = Open#open{led = View}};
message(Node, {abandon, Number, Refusal}, Part = #part{heal = #open{node = Node, number = Number}}) ->
    failed(Refusal, Node, Part);
message(Node, {abandon, 0, Refusal}, Part = #part{heal = Heal, exchange_timeout = Timeout}) ->
    %% The other node refuses this one, which takes it for a node to heal with.
    Rest = case Heal =/= idle andalso with(Heal) of Node -> Part#part{heal = idle}; _ -> Part end,
    heal_peers:retry(Node, Refusal, Timeout, Rest);
message(Node, {abandon, _Number, numbers}, Part = #part{heal = {engaged, #asking{node = Node}}}) ->
    %% The leader doesn't begin.
    failed(numbers, Node, Part);
message(_Node, _Stale, Part) ->
    Part.

%% Goes on after the actions before are done.
-spec continue(heal_part:step(), #part{}) -> #part{}.
continue({propose, Reference, Number, Seed, Members}, Part = #part{heal = {asking, #asking{node = Node, reference = Reference}}}) ->
    opened(open(Node, a, Number, Seed, Members, Part), Reference, Number, Seed, Node, Part#part{heal = idle});
continue({begin_with, Reference, Greatest, Members}, Part = #part{heal = {asking, #asking{node = Node, reference = Reference}}}) ->
    propose(Node, Reference, max(Greatest, Part#part.greatest) + 1, Members, Part);
continue({prepare, Reference, Members}, Part = #part{heal = {engaged, #asking{reference = Reference}}}) ->
    ready_offer(b, Members, Part);
continue({hear, Number, Offer}, Part = #part{heal = Open = #open{number = Number, side = b, others = none}}) ->
    hear(Offer, Open, Part);
continue({judge, Number, Bytes}, Part = #part{heal = Open = #open{number = Number}}) ->
    judge(Bytes, Open, Part);
continue({finish, Number, List}, Part = #part{heal = Open = #open{number = Number, side = b, stage = listed}}) ->
    finish(List, Open, Part);
continue({merge, Number}, Part = #part{heal = Open = #open{number = Number, stage = {finished, Outcome}}}) ->
    decided(merge(Outcome, Open, Part), Open, Part);
continue({Step, Number}, Part = #part{heal = Open = #open{number = Number, stage = {merged, Merge}}}) when Step =:= plan; Step =:= lead ->
    %% The version before begins to lead with this step.
    plan(Merge, Open, Part);
continue({led, Number}, Part = #part{heal = Open = #open{number = Number, stage = {planned, Merge, Plan}}}) ->
    led(Merge, Plan, Open, Part);
continue({keep, Number}, Part = #part{heal = Open = #open{number = Number, stage = {merged, Merge}}}) ->
    keep(Merge, Open, Part);
continue({follow, Number}, Part = #part{heal = Open = #open{number = Number, stage = {done, _, _}, led = View}}) ->
    follow(View, Open, Part);
continue(_Step, Part) ->
    Part.

%% A smaller primary queries this one. It answers if it leads no exchange itself.
asked(Node, Reference, Members, Nodes, Part = #part{heal = Heal, settle_by = SettleBy, limbo = Limbo}) ->
    HasMet = has_met(Node, Nodes, Part),
    case {Heal, heal_state:is_primary(Part)} of
        {#open{}, _} -> busy(Node, Reference, Nodes, Part);
        {{asking, #asking{node = Node, reference = Reference}}, _} -> turn(Node, Reference, Part);
        {{engaged, #asking{node = Other}}, _} when Other =/= Node -> busy(Node, Reference, Nodes, Part);
        {_, true} when SettleBy =:= none, Limbo =:= none, HasMet -> answer(Node, Reference, Members, cancel(Part));
        {_, true} -> busy(Node, Reference, Nodes, Part);
        {_, false} -> heal_peers:announce_to(Node, busy(Node, Reference, Nodes, Part))
    end.

busy(Node, Reference, Nodes, Part = #part{declined = Declined}) ->
    heal_state:send(Node, {busy, Reference}, Part#part{declined = Declined#{Node => {Reference, Nodes}}}).

cancel(Part = #part{heal = {asking, #asking{node = Node, reference = Reference}}}) ->
    heal_state:send(Node, {cancel, Reference}, Part#part{heal = idle});
cancel(Part) ->
    Part#part{heal = idle}.

%% It leads if its part is the larger one.
answer(Node, Reference, Members, Part = #part{now = Now, exchange_timeout = Timeout, declined = Declined}) ->
    case length(members(Part)) > length(Members) andalso heal_peers:takes_differences(Node, Part) of
        true ->
            Asking = #asking{node = Node, reference = Reference, deadline = Now + Timeout div 2 + 1 + most(Part)},
            turn(Node, Reference, Part#part{heal = {asking, Asking}, declined = maps:remove(Node, Declined)});
        false ->
            engage(Node, Reference, Members, Part)
    end.

turn(Node, Reference, Part) ->
    heal_state:send(Node, {turn, Reference, members(Part)}, Part).

%% It makes its offer ready meanwhile.
engage(Node, Reference, Members, Part = #part{now = Now, exchange_timeout = Timeout, greatest = Greatest, declined = Declined}) ->
    Engaged = #asking{node = Node, reference = Reference, deadline = Now + Timeout div 2 + 1 + most(Part)},
    Next = Part#part{heal = {engaged, Engaged}, declined = maps:remove(Node, Declined)},
    Answered = heal_state:send(Node, {hello, Reference, Greatest, members(Part)}, Next),
    heal_state:continue({prepare, Reference, Members}, Answered).

%% ---- The exchange ----

%% The leader proposes a number and a seed, with which both nodes begin at the same time, and opens the exchange: step 1.
propose(Node, Reference, Number, Members, Part = #part{world = World}) ->
    Own = members(Part),
    case clashing_numbers(Own ++ Members) of
        false ->
            Seed = World:seed(),
            Sent = heal_state:send(Node, {propose, Number, Seed, Own, Reference}, counted(Number, Part)),
            heal_state:continue({propose, Reference, Number, Seed, Members}, Sent);
        true ->
            refused(numbers, Node, Number, Part)
    end.

%% No later exchange of this node has this number.
counted(Number, Part) ->
    heal_state:add({keep, greatest, Number}, Part#part{greatest = Number}).

%% Two nodes of one number can't be in one part.
clashing_numbers(Members) ->
    Nodes = lists:usort([{Number, Node} || {{Node, _}, Number} <- Members]),
    length(Nodes) =/= length(lists:usort([Number || {Number, _} <- Nodes])).

opened({ok, Offer, Open}, Reference, Number, Seed, Node, Part) ->
    heal_state:send(Node, {offer, Number, Seed, Offer, Reference}, Part#part{heal = Open, prepared = none});
opened({error, Refusal}, _Reference, Number, _Seed, Node, Part) ->
    refused(Refusal, Node, Number, Part).

open(Node, Side, Number, Seed, Members, Part = #part{now = Now}) ->
    case begin_with(ready(Side, Members, Part), Number, Seed, Part) of
        {ok, Bytes, Handle, #prepared{at = At, names = Names}} ->
            Open = extended(#open{node = Node, number = Number, side = Side, from = At, handle = Handle, own = Names,
                                  members = Members, begun = Now, deadline = Now}, Part),
            Processes = heal_processes:sent(heal_processes:groups(Names), heal_peers:takes_groups(Node, Part)),
            {ok, {Bytes, Processes, (heal_state:half(Part))#half.programs, members(Part)}, Open};
        Refused ->
            Refused
    end.

begin_with({ok, Prepared = #prepared{handle = Handle}}, Number, Seed, #part{world = World}) ->
    case World:open(Number, Seed, Handle) of
        {ok, Bytes, Begun} -> {ok, Bytes, Begun, Prepared};
        Refused -> Refused
    end;
begin_with(Refused, _Number, _Seed, _Part) ->
    Refused.

%% Prepares an offer before the exchange is open.
ready_offer(Side, Members, Part) ->
    case prepare(Side, Members, Part) of
        {ok, Prepared} -> Part#part{prepared = Prepared};
        _Refused -> Part
    end.

%% What was prepared, with the edits since.
ready(Side, Members, Part = #part{prepared = Prepared}) ->
    View = heal_state:view(Part),
    case Prepared of
        #prepared{side = a, at = {View, _}} when Side =:= a -> updated(Prepared, Part);
        #prepared{side = b, at = {View, _}, members = Members} when Side =:= b -> updated(Prepared, Part);
        _ -> prepare(Side, Members, Part)
    end.

updated(Prepared = #prepared{touched = Touched}, Part) when Touched =:= #{} ->
    {ok, Prepared#prepared{at = heal_state:at(Part)}};
updated(#prepared{side = Side, members = Members, names = Names, handle = Handle, touched = Touched}, Part = #part{world = World}) ->
    Rows = offered(Side, Members, maps:with(maps:keys(Touched), (heal_state:half(Part))#half.names)),
    Gone = [Name || Name <- maps:keys(Touched), is_map_key(Name, Names)],
    case World:update(maps:to_list(Rows), Gone, Handle) of
        {ok, Updated} ->
            {ok, prepared(Side, Members, maps:merge(maps:without(Gone, Names), Rows), Updated, Part)};
        _Refused ->
            prepare(Side, Members, Part)
    end.

%% Notes an edit of this primary for what it is about to offer.
-spec touched(heal_replica:edit(), #part{}) -> #part{}.
touched(_Edit, Part = #part{prepared = none}) ->
    Part;
touched({upload, _, _}, Part) ->
    Part#part{prepared = none};
touched(Edit, Part = #part{prepared = Prepared = #prepared{touched = Touched}}) ->
    Part#part{prepared = Prepared#prepared{touched = Touched#{element(2, Edit) => edited}}}.

prepare(Side, Members, Part = #part{world = World, replica = Replica}) ->
    #half{names = All, programs = Programs} = heal_state:half(Part),
    Names = offered(Side, Members, All),
    %% A backup has what its primary made, also beyond its own limit.
    case World:prepare(Side, Names, Programs, max(map_size(Names), heal_replica:limit(Replica))) of
        {ok, Handle} -> {ok, prepared(Side, Members, Names, Handle, Part)};
        Refused -> Refused
    end.

prepared(Side, Members, Names, Handle, Part) ->
    #prepared{at = heal_state:at(Part), side = Side, members = Members, names = Names, handle = Handle}.

%% Nodes that both parts claim count as the leader's.
offered(a, _Members, Names) ->
    Names;
offered(b, Members, Names) ->
    Theirs = maps:from_keys([Life || {Life, _} <- Members], member),
    maps:without([Name || {Name, #row{home = Home}} <- maps:to_list(Names), is_map_key(Home, Theirs)], Names).

%% The other node begins too, and sends its offer.
accept(Node, Number, Seed, Members, Continue, Part) ->
    case Number > Part#part.greatest andalso open(Node, b, Number, Seed, Members, Part) of
        {ok, Offer, Open} ->
            Begun = (counted(Number, Part))#part{heal = Open, prepared = none},
            Continue(heal_state:send(Node, {offer, Number, Seed, Offer, none}, Begun));
        {error, Refusal} ->
            refused(Refusal, Node, Number, Part);
        false ->
            Part
    end.

%% Hears the other side's offer. Callers that register what is in neither offer don't wait for the verdicts.
hear({Bytes, Processes, Programs, Members}, Open = #open{number = Number}, Part) ->
    Next = Open#open{others = heal_processes:received(Processes), programs = Programs, members = Members},
    heal_state:continue({judge, Number, Bytes}, heal_grants:heard(Part#part{heal = extended(Next, Part)})).

judge(Bytes, Open = #open{handle = Handle, side = Side}, Part = #part{world = World}) ->
    case {World:hear(Bytes, Handle), Side} of
        {{ok, Heard}, a} -> close(Part#part{heal = Open#open{handle = Heard}});
        {{ok, Heard}, b} -> Part#part{heal = Open#open{handle = Heard}};
        {{error, Refusal}, _} -> refused(Refusal, Part)
    end.

extended(Open, #part{now = Now, exchange_timeout = Timeout}) ->
    Open#open{deadline = Now + Timeout + heal_state:longer(names(Open))}.

names(#open{stage = {done, #half{names = Names}, _}}) -> map_size(Names);
names(#open{own = Own, others = none}) -> map_size(Own);
names(#open{own = Own, others = Others}) -> map_size(Own) + heal_processes:count(Others).

%% Sends the list of withdrawn names: steps 2 and 3.
close(Part = #part{world = World, heal = Open = #open{node = Node, number = Number, handle = Handle, withdrawn = Withdrawn}}) ->
    case World:close(Handle) of
        {ok, List, Closed} ->
            Listed = extended(Open#open{handle = Closed, stage = listed}, Part),
            heal_state:send(Node, {list, Number, {List, Withdrawn}}, Part#part{heal = Listed});
        {error, Refusal} ->
            refused(Refusal, Part)
    end.

%% Ends the exchange. Both nodes compute the merge at the same time, and callers don't wait for it.
finish({List, Withdrawn}, Open = #open{number = Number, handle = Handle, own = Own, others = Others}, Part = #part{world = World}) ->
    %% Besides the names that clash, only those of one side alone and those that are withdrawn may change.
    Gone = [Name || Name <- Withdrawn ++ Open#open.withdrawn, is_map_key(Name, Own)],
    case World:finish(List, Gone ++ heal_processes:alone(Others, Own), Handle) of
        {ok, Judged, Rows, Lacking} ->
            Finished = Open#open{stage = {finished, {Judged, Rows, Lacking, Withdrawn}}},
            heal_state:later({merge, Number}, Part#part{heal = Finished});
        {error, Refusal} ->
            refused(Refusal, Part)
    end.

decided(Merge, Open = #open{number = Number, side = Side}, Part) ->
    case has_room(Merge, Open, Part) of
        true ->
            Next = case Side of a -> plan; b -> keep end,
            heal_state:later({Next, Number}, Part#part{heal = Open#open{stage = {merged, Merge}}});
        false ->
            refused(?STORE_FULL, Part)
    end.

%% Returns whether there is room for all programs that rows of the merge name. Most often there is room for those of both parts.
has_room({#half{names = Names}, _, _, _}, #open{programs = Theirs}, Part) ->
    #half{programs = Ours} = heal_state:half(Part),
    map_size(maps:merge(Theirs, Ours)) =< ?MAX_PROGRAMS orelse map_size(named(Names)) =< ?MAX_PROGRAMS.

%% The leader computes what the merge changes on this node, like the other one.
plan(Merge = {Half, Losers, Changes, _Facts}, Open = #open{number = Number}, Part) ->
    Plan = heal_home:plan(Losers, Half, Changes, Part),
    heal_state:later({led, Number}, Part#part{heal = Open#open{stage = {planned, Merge, Plan}}}).

%% The leader starts the view that begins with the merge, and names it to the other node. A node that fails after this starts another view.
led({Half, _Losers, _Changes, Facts}, Plan, Open = #open{node = Node, number = Number, from = From}, Part = #part{replica = Replica}) ->
    case heal_replica:change(From, Half, Replica) of
        {ok, Led} ->
            {View = {_, Latest}, 0} = heal_replica:position(Led),
            Sent = heal_state:send(Node, {finished, Number, View}, heal_state:add({keep, led, Latest}, succeeded(Node, Part))),
            Members = united_members(Node, Open, Part),
            heal_state:add({healed, Facts}, heal_view:start(Led, Members, Node, heal_home:current(Plan, Half, Part), Sent));
        {error, Refusal} ->
            refused(Refusal, Part)
    end.

%% The other node keeps the merge until it hears of the leader's view, with what it changes on this node and what is reported of it. Callers
%% that wait go first if it has heard already.
keep({Half, Losers, Changes, Facts}, Open = #open{number = Number, led = Led}, Part) ->
    Plan = heal_home:plan(Losers, Half, Changes, Part),
    Done = Part#part{heal = extended(Open#open{handle = {healed, Facts}, stage = {done, Half, Plan}}, Part)},
    case Led of
        none -> Done;
        _ -> heal_state:later({follow, Number}, Done)
    end.

merge({{Clashes, Losses, Rulings}, Rows, Lacking, Withdrawn}, Open, Part = #part{world = World}) ->
    Won = [{Name, Values} || {Name, _, _, _, _, Values} <- Losses, Values =/= none],
    Lost = [Name || {Name, _, _, _, _, none} <- Losses],
    {Half, Changes} = merged(maps:from_list(Rows ++ Won), Lacking ++ Lost, Open, Part),
    {Half, heal_losers:judged({Losses, Rulings}, Withdrawn, Open, Half, World), Changes, facts(Clashes, Half, Open, Part)}.

facts(Clashes, #half{names = Names}, #open{node = Node, number = Number, begun = Begun}, #part{now = Now}) ->
    #{with => Node, number => Number, clashes => Clashes, names => map_size(Names), milliseconds => Now - Begun}.

%% The merge, and what it changes: it has these registrations of the other side, and lacks these names.
merged(Gained, Lacking, Open, Part) ->
    #open{number = Number, side = Side, own = Own, others = Others, programs = Theirs} = Open,
    #half{names = Names, programs = Ours} = heal_state:half(Part),
    Rows = heal_processes:rows(Others, Gained),
    Merge = maps:merge(maps:without(Lacking, Own), maps:from_list(Rows)),
    Programs = case Side of a -> united(Ours, Theirs, Merge); b -> united(Theirs, Ours, Merge) end,
    Changes = case Names of
        Own -> {Rows, [Name || Name <- Lacking, is_map_key(Name, Own)]};
        _WithClaimed -> unknown
    end,
    {#half{names = Merge, programs = Programs, latest = Number}, Changes}.

%% The programs of both parts. If there isn't room for all: those that rows name, then the leader's, and then those of the other part.
united(OfA, OfB, Names) ->
    All = maps:merge(OfB, OfA),
    case map_size(All) =< ?MAX_PROGRAMS of
        true -> All;
        false ->
            Named = named(Names),
            Rank = fun(Id) -> {not is_map_key(Id, Named), not is_map_key(Id, OfA), Id} end,
            Ranked = lists:sort([{Rank(Id), Id} || Id <- maps:keys(All)]),
            maps:with([Id || {_, Id} <- lists:sublist(Ranked, ?MAX_PROGRAMS)], All)
    end.

%% The programs that rows name.
named(Names) ->
    maps:from_keys([Id || Row <- maps:values(Names), {program, Id} <- [heal_row:resolver(Row)]], named).

%% The members of the new view are those of both parts.
united_members(Node, #open{members = Theirs}, Part = #part{members = Members, peers = Peers, node = Self}) ->
    Own = heal_state:view(Part),
    #{Node := #peer{at = {Their, _}}} = Peers,
    Joined = maps:map(fun(_, Member) -> Member#member{was = Own, is_joined = false, is_lagging = false} end, Members),
    Others = maps:from_list([{Of, #member{life = Life, was = Their}} || {Life = {Of, _}, _} <- Theirs, Of =/= Self]),
    maps:merge_with(fun later/3, Others, Joined).

later(_Node, Other = #member{life = Later}, #member{life = Life}) when Later > Life -> Other;
later(_Node, _Other, Member) -> Member.

succeeded(Node, Part = #part{peers = Peers}) ->
    case Peers of
        #{Node := Peer} -> Part#part{heal = idle, peers = Peers#{Node := Peer#peer{failed = none, retry = 0}}};
        _ -> Part#part{heal = idle}
    end.

%% The leader starts its view with the merge. This node doesn't follow if that gives one of its names to another process.
follow(View, #open{node = Node, handle = Handle, stage = {done, Half, Plan}}, Part) ->
    Followed = heal_view:follow_merge(View, Half, Plan, Node, succeeded(Node, Part)),
    case {heal_state:view(Followed), Handle} of
        {View, {healed, _}} -> heal_state:add(Handle, Followed);
        %% Or the version before has reported it.
        _ -> Followed
    end.

%% Withdraws a name of this node in the open exchange, while its list isn't closed.
-spec withdraw(heal:name(), #part{}) -> #part{}.
withdraw(Name, Part = #part{world = World, heal = Open = #open{stage = offered, handle = Handle, own = Own, withdrawn = Gone}})
        when is_map_key(Name, Own) ->
    case World:withdraw(Name, Handle) of
        {ok, Withdrawn} -> Part#part{heal = Open#open{handle = Withdrawn, withdrawn = [Name | Gone]}};
        late -> Part
    end;
withdraw(_Name, Part) ->
    Part.

%% ---- Failures ----

refused(Refusal, Part = #part{heal = #open{node = Node, number = Number}}) ->
    refused(Refusal, Node, Number, Part).

refused(Refusal, Node, Number, Part) ->
    failed(Refusal, Node, heal_state:send(Node, {abandon, Number, Refusal}, Part)).

failed(Refusal, Node, Part = #part{exchange_timeout = Timeout}) ->
    heal_peers:retry(Node, Refusal, Timeout, Part#part{heal = idle}).

%% The other node of an exchange is gone.
-spec broken(#part{}) -> #part{}.
broken(Part = #part{heal = idle}) ->
    Part;
broken(Part = #part{heal = Heal, peers = Peers}) ->
    case is_map_key(with(Heal), Peers) of
        true -> Part;
        false -> Part#part{heal = idle}
    end.

%% A node that has this one announce itself, as a registry does that starts, is in no exchange with it, and has missed a query that was sent
%% before.
-spec announced(node(), heal_peers:here(), #part{}) -> #part{}.
announced(Node, #{is_first := true, life := Life, seq := Seq}, Part = #part{heal = Heal, peers = Peers}) when Heal =/= idle ->
    case {with(Heal), Peers} of
        {Node, #{Node := #peer{life = Life, seq = Last}}} when Seq =< Last -> Part;
        {Node, _} -> Part#part{heal = idle};
        _ -> Part
    end;
announced(_Node, _Here, Part) ->
    Part.

%% The registry of a node has failed, and starts again soon. If it has begun another exchange already, it gives that up.
-spec failed_with(node(), #part{}) -> #part{}.
failed_with(Node, Part = #part{heal = Heal}) ->
    case Heal =/= idle andalso with(Heal) of
        Node -> heal_peers:hurry(Node, Part#part{heal = idle});
        _ -> Part
    end.

%% The other node doesn't answer in time.
-spec expired(#part{}) -> #part{}.
expired(Part = #part{heal = {asking, #asking{node = Node, deadline = Deadline}}, now = Now}) when Now >= Deadline ->
    heal_peers:retry(Node, silent, Part#part.exchange_timeout, cancel(Part));
expired(Part = #part{heal = {engaged, #asking{deadline = Deadline}}, now = Now}) when Now >= Deadline ->
    Part#part{heal = idle};
expired(Part = #part{heal = #open{deadline = Deadline}, now = Now}) when Now >= Deadline ->
    refused(silent, Part);
expired(Part) ->
    Part.
