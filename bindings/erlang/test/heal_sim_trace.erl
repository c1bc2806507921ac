%% The events of a schedule, its trace, and how it ends when a promise is broken.
-module(heal_sim_trace).

-include("heal_sim.hrl").

-export([about/2, at/3, broken/3, print/3, trace/3]).

%% Prints the end of the trace, or of its lines about a process and its node.
print(Words, #sim{trace = Trace}, Count) ->
    Lines = [Line || Line = {_, Text} <- Trace, Words =:= [] orelse lists:any(fun(Word) -> string:find(Text, Word) =/= nomatch end, Words)],
    [io:format("~8w ~ts~n", [Now, Text]) || {Now, Text} <- lists:reverse(lists:sublist(Lines, Count))].

about(Facts, #sim{processes = Processes}) when is_tuple(Facts), is_map_key(element(1, Facts), Processes) ->
    #process{owner = Owner, node = Node} = map_get(element(1, Facts), Processes),
    Start = atom_to_list(Node),
    [lists:flatten(io_lib:format("~0p", [Word])) || Word <- [element(1, Facts), Owner], Word =/= none]
        ++ [Start ++ " is in view"] ++ [Verb ++ Start || Verb <- ["kill ", "stop ", "crash ", "hang ", "wake ", "start "]];
about(_Facts, _Sim) ->
    [].

trace(Format, Args, Sim = #sim{is_traced = IsTraced, now = Now, trace = Trace}) when IsTraced =/= false ->
    Spelled = [case Arg of {short, Event} -> short(Event); _ -> Arg end || Arg <- Args],
    Sim#sim{trace = [{Now, unicode:characters_to_list(io_lib:format(Format, Spelled))} | Trace]};
trace(_Format, _Args, Sim) ->
    Sim.

broken(Promise, Facts, Sim) ->
    throw({broken, Promise, Facts, Sim}).

at(Delay, Event, Sim = #sim{now = Now, count = Count, queue = Queue}) ->
    Sim#sim{count = Count + 1, queue = gb_trees:insert({Now + Delay, Count}, Event, Queue)}.

short({message, From, Body}) -> io_lib:format("~p: ~s", [From, short(Body)]);
short({here, #{at := At, is_settled := IsSettled, seq := Seq}}) -> io_lib:format("here ~0p ~p ~p", [At, IsSettled, Seq]);
short({snapshot, {{At, #half{names = Names}}, Losers}}) -> io_lib:format("snapshot ~0p ~0p lost ~0p", [At, pids(Names), Losers]);
short({difference, {{Since, From, At, Put, Drop, _, _}, Losers}}) ->
    io_lib:format("difference ~0p ~0p ~0p ~0p ~0p lost ~0p", [Since, From, At, pids(Put), Drop, Losers]);
short({offer, Number, _, {_, Names, _, Members}, _}) -> io_lib:format("offer ~p ~0p of ~0p", [Number, Names, Members]);
short({finished, Seq, At, Requests, Edits}) ->
    io_lib:format("finished ~p ~0p ~p ~0p", [Seq, At, Requests, [edit(Edit) || Edit <- Edits]]);
short({edit, At, Edits, By, Answer}) -> io_lib:format("edit ~0p ~0p ~0p ~0p", [At, [edit(Edit) || Edit <- Edits], By, Answer]);
short({request, View, Number, Edit}) -> io_lib:format("request ~0p ~0p ~0p", [View, Number, edit(Edit)]);
short({call, From, Edit}) -> io_lib:format("call ~p ~0p", [From, edit(Edit)]);
short(Event) -> io_lib:format("~0p", [Event]).

pids(Names) -> maps:map(fun(_, #row{pid = Pid}) -> Pid end, Names).

edit({register, Name, Row = #row{pid = Pid}}) -> {register, Name, heal_row:owner(Row), Pid};
edit({adopt, Name, _, _, Pid, _}) -> {adopt, Name, Pid};
edit(Edit) -> Edit.
