%% @private The processes of the names that a part offers, those that one node answers for together: most of what there would be for each
%% of them is alike. Nodes of an earlier version send and take a map.
-module(heal_processes).

-include("heal_replica.hrl").

-export([groups/1, sent/2, received/1, count/1, alone/2, rows/2, pids/1]).
-export_type([groups/0, sent/0]).

-type groups() :: [{Node :: 0..16#ffffffff, Home :: heal_replica:life(), [process()]}].
%% Without the term if it is the name itself.
-type process() :: {heal:name(), Serial :: 0..16#ffffffff, pid()} | {heal:name(), Serial :: 0..16#ffffffff, pid(), Term :: term()}.
-type sent() :: groups() | #{heal:name() => {heal:owner(), pid(), Term :: term(), Home :: heal_replica:life()}}.

%% Returns the processes of rows.
-spec groups(#{heal:name() => #row{}}) -> groups().
groups(Rows) ->
    grouped([{Node, Home, process(Name, Serial, Pid, Term)}
             || {Name, #row{serial = Serial, alike = {Node, _, _, _}, pid = Pid, term = Term, home = Home}} <- maps:to_list(Rows)]).

grouped(Processes) ->
    [{Node, Home, Of} || {{Node, Home}, Of} <- maps:to_list(grouped(Processes, none, [], #{}))].

%% Puts a process to the ones before it if it is of the same group, as most are.
grouped([{Node, Home, Process} | Rest], Of = {Node, Home}, Processes, Groups) ->
    grouped(Rest, Of, [Process | Processes], Groups);
grouped([{Node, Home, Process} | Rest], Of, Processes, Groups) ->
    Kept = Groups#{Of => Processes},
    grouped(Rest, {Node, Home}, [Process | maps:get({Node, Home}, Kept, [])], Kept);
grouped([], Of, Processes, Groups) ->
    maps:remove(none, Groups#{Of => Processes}).

process(Name, Serial, Pid, Name) -> {Name, Serial, Pid};
process(Name, Serial, Pid, Term) -> {Name, Serial, Pid, Term}.

term({Name, _, _}) -> Name;
term({_, _, _, Term}) -> Term.

%% Returns what a message has of them, for a node that takes groups or for one of an earlier version.
-spec sent(groups(), TakesGroups :: boolean()) -> sent().
sent(Groups, true) ->
    Groups;
sent(Groups, false) ->
    maps:from_list([{element(1, Process), {{Node, element(2, Process)}, element(3, Process), term(Process), Home}}
                    || {Node, Home, Processes} <- Groups, Process <- Processes]).

%% Returns the processes of a message.
-spec received(sent()) -> groups().
received(Groups) when is_list(Groups) ->
    Groups;
received(Processes) ->
    grouped([{Node, Home, process(Name, Serial, Pid, Term)} || {Name, {{Node, Serial}, Pid, Term, Home}} <- maps:to_list(Processes)]).

%% Returns how many processes a message has.
-spec count(sent()) -> non_neg_integer().
count(Groups) when is_list(Groups) -> lists:sum([length(Processes) || {_, _, Processes} <- Groups]);
count(Processes) -> map_size(Processes).

%% Returns the names that these rows don't have.
-spec alone(groups(), #{heal:name() => #row{}}) -> [heal:name()].
alone(Groups, Rows) ->
    [element(1, Process) || {_, _, Processes} <- Groups, Process <- Processes, not is_map_key(element(1, Process), Rows)].

%% Returns the rows of those that have one of these registrations. They share what they have alike.
-spec rows(groups(), #{heal:name() => heal:values()}) -> [{heal:name(), #row{}}].
rows(Groups, Registered) ->
    lists:foldl(fun({Node, Home, Processes}, Sum) -> rows(Processes, {Node, Home}, Registered, none, Sum) end, [], Groups).

rows([], _Of, _Registered, _Last, Sum) ->
    Sum;
rows([Process | Rest], Of = {Node, Home}, Registered, Last, Sum) ->
    Name = element(1, Process),
    Serial = element(2, Process),
    case Registered of
        #{Name := {Serial, Stamp, Alike = {Node, _, _, _}}} ->
            Shared = if Alike =:= Last -> Last; true -> Alike end,
            Row = heal_row:of_values(Name, {Serial, Stamp, Shared}, element(3, Process), term(Process), Home),
            rows(Rest, Of, Registered, Shared, [{Name, Row} | Sum]);
        _ ->
            rows(Rest, Of, Registered, Last, Sum)
    end.

%% Returns the processes by their names.
-spec pids(groups()) -> #{heal:name() => pid()}.
pids(Groups) ->
    maps:from_list([{element(1, Process), element(3, Process)} || {_, _, Processes} <- Groups, Process <- Processes]).
