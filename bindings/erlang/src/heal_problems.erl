%% @private What keeps this node's part apart from others: logged once, with an alarm until it is over.
%%
%% A problem is the number of a refusal, such as 37 or 42 where the names or programs of both parts don't fit, and 43 for a
%% program that the part has no room for; `nodes', `scope' or `hidden' for another node's settings; `numbers' for two nodes of one
%% number; `version' for another version of the messages; `silent' for a node that doesn't answer; `dir' for a disk that can't be
%% written.
-module(heal_problems).

-export([report/1, over/1, all/0]).
-export_type([problem/0]).

-type problem() :: pos_integer() | heal_peers:refusal() | silent | dir.

%% Logs what is new, keeps the latest words and clears what is over.
-spec report(heal_peers:problems()) -> ok.
report(Problems) ->
    over(maps:keys(Problems)),
    maps:foreach(fun(Problem, {Node, Info}) -> found(Problem, words(Problem, Node, Info)) end, Problems).

words(nodes, Node, Nodes) ->
    io_lib:format("stays apart from ~p, whose setting nodes is ~0p", [Node, Nodes]);
words(scope, Node, Scope) ->
    io_lib:format("stays apart from ~p, whose scope is ~0p", [Node, Scope]);
words(hidden, Node, none) ->
    io_lib:format("~p stays apart from this node, a hidden node: name this one in its setting nodes", [Node]);
words(hidden, Node, _Number) ->
    io_lib:format("stays apart from ~p, a hidden node: name it in the setting nodes", [Node]);
words(numbers, Node, {Other, Number}) ->
    io_lib:format("stays apart from ~p, which has the node number ~p of ~p: set node_numbers", [Node, Number, Other]);
words(numbers, Node, none) ->
    io_lib:format("can't heal with ~p: two nodes of both parts have one number", [Node]);
words(version, Node, Version) ->
    io_lib:format("stays apart from ~p, whose messages have version ~p", [Node, Version]);
words(silent, Node, _None) ->
    io_lib:format("~p doesn't answer: it hangs, or its heal has another version", [Node]);
words(dir, _Node, {File, Why}) ->
    io_lib:format("programs aren't kept in ~ts: ~ts", [File, unwritable(Why)]);
words(43, Node, _None) ->
    io_lib:format("~p lacks programs: ~ts", [Node, heal:refusal_words(43)]);
words(Number, Node, _None) ->
    io_lib:format("can't heal with ~p: ~ts", [Node, heal:refusal_words(Number)]).

unwritable({create, Why}) -> io_lib:format("its folder can't be created (~p)", [Why]);
unwritable({read, Why}) -> io_lib:format("it can't be read (~p)", [Why]);
unwritable({write, Why}) -> io_lib:format("it can't be written (~p)", [Why]);
unwritable(not_a_log) -> "it isn't a log of heal_registry, or of another version; move it away";
unwritable({damaged, Byte}) -> io_lib:format("it is damaged at byte ~p; what is before is used; move it away", [Byte]);
unwritable(replaced) -> "another node of this name has written it; start this registry again once that node has ended";
unwritable(ended) -> "the process that writes it has ended, and starts again";
unwritable(Refusal) -> heal:refusal_words(Refusal).

%% Logs a problem and sets its alarm, unless it is known. Its words may be others than before.
-spec found(problem(), Words :: unicode:chardata()) -> ok.
found(Problem, Words) ->
    Known = all(),
    _ = is_map_key(Problem, Known) orelse new(Problem, Words),
    heal_table:keep(problems, Known#{Problem => unicode:characters_to_binary(Words)}).

new(Problem, Words) ->
    logger:warning("heal_registry: ~ts (problem ~p)", [Words, Problem]),
    alarm(fun() -> alarm_handler:set_alarm({{heal_registry, Problem}, unicode:characters_to_list(Words)}) end).

%% Clears all problems but these.
-spec over(Rest :: [problem()]) -> ok.
over(Rest) ->
    Known = all(),
    maps:foreach(fun over/2, maps:without(Rest, Known)),
    heal_table:keep(problems, maps:with(Rest, Known)).

over(Problem, _Words) ->
    logger:notice("heal_registry: problem ~p is over", [Problem]),
    alarm(fun() -> alarm_handler:clear_alarm({heal_registry, Problem}) end).

%% Returns the known problems with their words.
-spec all() -> #{problem() => Words :: binary()}.
all() ->
    heal_table:kept(problems, #{}).

%% Only with the application sasl the node has alarms.
alarm(Call) ->
    case whereis(alarm_handler) of
        undefined -> ok;
        _ -> Call()
    end.
