%% @private The losers of an exchange: the registrations that it takes names from, each with its notice and with the process that it lost
%% against.
-module(heal_losers).

-include("heal_part.hrl").

-export([judged/5, lost/2, list/1]).
-export_type([losers/0, loser/0, loss/0]).

-record(judged, {
    losses :: [heal:loss()],
    world :: module(),
    rulings :: heal_exchange:rulings(),
    withdrawn :: #{heal:name() => withdrawn},
    side :: a | b,
    own :: #{heal:name() => #row{}},
    others :: heal_processes:groups(),
    merged :: #{heal:name() => #row{}}
}).

-type loss() :: {heal_names:notice(), Rival :: pid()}.
-type loser() :: {heal:name(), heal:owner(), loss()}.
%% The list of all takes a while, and a node needs it only for the snapshots that it sends.
-type losers() :: [loser()] | #judged{}.

%% Returns the losers of an exchange in which the other side has withdrawn these names, and which has this merge.
-spec judged({Losses :: [heal:loss()], heal_exchange:rulings()}, Withdrawn :: [heal:name()], #open{}, Merged :: #half{}, World :: module()) ->
    losers().
judged({Losses, Rulings}, Withdrawn, #open{side = Side, own = Own, others = Others, withdrawn = Ours}, #half{names = Merged}, World) ->
    #judged{losses = Losses, world = World, rulings = Rulings, withdrawn = maps:from_keys(Withdrawn ++ Ours, withdrawn), side = Side,
            own = Own, others = Others, merged = Merged}.

%% Returns which registrations of a node have lost their names.
-spec lost(losers(), Own :: #{heal:name() => #row{}}) -> #{heal:name() => loss()}.
lost(Judged = #judged{losses = Losses, others = Others}, Own) ->
    %% The process of a name that nobody has after the exchange.
    Pids = case lists:keymember(none, 6, Losses) of true -> heal_processes:pids(Others); false -> #{} end,
    maps:from_list([{Name, Lost} || Loss = {Name, _, _, _, _, _} <- Losses, Lost <- loss(Loss, Judged, Pids, Own)]);
lost(Losers, Own) ->
    %% A registration of an earlier life of this node may have had the owner: that one has lost against the process of this one.
    maps:from_list([{Name, Loss} || {Name, Owner, Loss = {_, Rival}} <- Losers, #{Name := Row = #row{pid = Pid}} <- [Own], Pid =/= Rival,
                                    heal_row:is_of(Owner, Row)]).

loss({Name, Owner, Position, Verdict, Resolver, Winner}, #judged{withdrawn = Gone, merged = Merged}, Pids, Own) ->
    case {heal_names:notice(Position, Verdict, Resolver), Own} of
        {none, _} -> [];
        {Notice, #{Name := Row = #row{pid = Pid}}} when not is_map_key(Name, Gone) ->
            Rival = case Winner of none -> maps:get(Name, Pids, Pid); _ -> (map_get(Name, Merged))#row.pid end,
            %% A process that clashes with itself loses nothing, nor does one against a name that the other side offered without a process.
            [{Notice, Rival} || Rival =/= Pid, heal_row:is_of(Owner, Row)];
        _ -> []
    end.

%% Returns all losers.
-spec list(losers()) -> [loser()].
list(Judged = #judged{world = World, rulings = Rulings, others = Others}) ->
    Pids = heal_processes:pids(Others),
    lists:foldr(fun(Ruling, Sum) -> losers(Ruling, Pids, Judged) ++ Sum end, [], World:rulings(Rulings));
list(Losers) ->
    Losers.

losers({Name, First, Second, Half, Verdict, Resolver}, Pids, #judged{withdrawn = Gone, side = Side, own = Own}) ->
    case {Own, Pids} of
        {#{Name := #row{pid = OfOwn}}, #{Name := OfOther}} when OfOwn =/= OfOther, not is_map_key(Name, Gone) ->
            {OfFirst, OfSecond} = case Half of Side -> {OfOwn, OfOther}; _ -> {OfOther, OfOwn} end,
            [case Position of first -> {Name, First, {Notice, OfSecond}}; second -> {Name, Second, {Notice, OfFirst}} end
             || Notice = {_, Position} <- heal_names:notices(Verdict, Resolver)];
        _ ->
            []
    end.
