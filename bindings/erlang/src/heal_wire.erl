%% @private The messages between the registries of nodes.
%%
%% A message is `{heal_registry, Version, Node, Body}'. A registry ignores a body that isn't valid, so that no message of another
%% program or version ends it. Registries of other versions are refused: version 2 was that of registries of two nodes.
-module(heal_wire).

-include("heal_replica.hrl").

-export([message/1, send/2, read/1, body/1, is_of_edit/1, edit/1]).

-define(VERSION, 3).

%% Returns the message of a body.
-spec message(Body :: term()) -> tuple().
message(Body) ->
    {heal_registry, ?VERSION, node(), sent(Body)}.

%% A row crosses the wire with its registration as a map.
sent({snapshot, {{At, Half = #half{names = Names}}, Losers}}) ->
    {snapshot, {{At, Half#half{names = maps:map(fun(_, Row) -> heal_row:sent(Row) end, Names)}}, Losers}};
sent({difference, {{Since, From, At, Put, Drop, Programs, Latest}, Losers}}) ->
    {difference, {{Since, From, At, maps:map(fun(_, Row) -> heal_row:sent(Row) end, Put), Drop, Programs, Latest}, Losers}};
sent({edit, At, Edits, By, Answer}) ->
    {edit, At, [sent_edit(Edit) || Edit <- Edits], By, Answer};
sent({finished, Seq, At, Requests, Edits}) ->
    {finished, Seq, At, Requests, [sent_edit(Edit) || Edit <- Edits]};
sent({request, View, Number, Edit}) ->
    {request, View, Number, sent_edit(Edit)};
sent({bundle, Bodies}) ->
    {bundle, [sent(Body) || Body <- Bodies]};
sent(Body) ->
    Body.

sent_edit({register, Name, Row}) -> {register, Name, heal_row:sent(Row)};
sent_edit(Edit) -> Edit.

%% Never waits: neither for a connection nor for a node that reads slowly.
-spec send(node(), Message :: term()) -> ok | nosuspend | noconnect.
send(Node, Message) ->
    erlang:send({heal_registry, Node}, Message, [noconnect, nosuspend]).

%% Reads a message of a registry.
-spec read(term()) -> {ok, node(), Body :: term()} | {version, node(), Version :: term()} | error.
read({heal_registry, ?VERSION, Node, Body}) when is_atom(Node) -> {ok, Node, Body};
read({heal_registry, Version, Node, _Body}) when is_atom(Node) -> {version, Node, Version};
read({heal_registry, Node, _Body}) when is_atom(Node) -> {version, Node, 1};
read(_Other) -> error.

%% Returns whether a body is that of an edit: such bodies are short and many. Several of them may go in one `{bundle, Bodies}'.
-spec is_of_edit(Body :: tuple()) -> boolean().
is_of_edit(Body) ->
    Kind = element(1, Body),
    Kind =:= edit orelse Kind =:= request orelse Kind =:= answer orelse Kind =:= granted orelse Kind =:= adopt orelse Kind =:= adopted
        orelse Kind =:= released.

%% Returns a body that another node has sent, if it is valid. An invalid edit is `bad', which the receiver refuses.
-spec body(Sent :: term()) -> {ok, Body :: term()} | error.
body(Sent) ->
    case is_valid(Sent) of
        true -> {ok, received(Sent)};
        false -> error
    end.

received({snapshot, {{At, Half = #half{names = Names}}, Losers}}) ->
    {snapshot, {{At, Half#half{names = maps:map(fun heal_row:received/2, Names)}}, Losers}};
received({difference, {{Since, From, At, Put, Drop, Programs, Latest}, Losers}}) ->
    {difference, {{Since, From, At, maps:map(fun heal_row:received/2, Put), Drop, Programs, Latest}, Losers}};
received({edit, At, Edits, By, Answer}) ->
    {edit, At, [received_edit(Edit) || Edit <- Edits], By, Answer};
received({finished, Seq, At, Requests, Edits}) ->
    {finished, Seq, At, Requests, [received_edit(Edit) || Edit <- Edits]};
received({request, View, Number, Edit}) ->
    {request, View, Number, edit(Edit)};
received({adopt, Number, Edit}) ->
    {adopt, Number, edit(Edit)};
received(Body) ->
    Body.

received_edit({register, Name, Row}) -> {register, Name, heal_row:received(Name, Row)};
received_edit(Edit) -> Edit.

is_valid({here, #{life := Life, seq := Seq, number := Number, nodes := Nodes, scope := _, at := At, members := Members,
                  is_settled := IsSettled, is_first := IsFirst}}) ->
    is_life(Life) andalso is_count(Seq) andalso is_word(Number) andalso (Nodes =:= any orelse all(fun is_atom/1, Nodes))
        andalso is_at(At) andalso all(fun is_atom/1, Members) andalso is_boolean(IsSettled) andalso is_boolean(IsFirst);
is_valid({want, View}) -> is_view(View);
is_valid({snapshot, {{At, #half{names = Names, programs = Programs, latest = Latest}}, Losers}}) ->
    is_at(At) andalso are_names(Names, fun is_row/1) andalso are_programs(Programs) andalso is_count(Latest)
        andalso all(fun is_loser/1, Losers);
is_valid({difference, {{Since, From, At, Put, Drop, Programs, Latest}, Losers}}) ->
    is_count(Since) andalso is_at(From) andalso is_at(At) andalso are_names(Put, fun is_row/1) andalso all(fun is_name/1, Drop)
        andalso are_programs(Programs) andalso is_count(Latest) andalso all(fun is_loser/1, Losers);
is_valid({finished, Seq, At, Requests, Edits}) ->
    is_count(Seq) andalso is_at(At) andalso is_count(Requests) andalso all(fun is_edit/1, Edits);
is_valid({finished, Number, View}) -> is_count(Number) andalso is_view(View);
is_valid({settled, At}) -> is_at(At);
is_valid({edit, At, Edits, By, _Answer}) ->
    is_at(At) andalso Edits =/= [] andalso all(fun is_made/1, Edits) andalso (By =:= none orelse is_request(By));
is_valid({request, View, Number, _Edit}) -> is_view(View) andalso is_count(Number);
is_valid({answer, View, Number, _Answer}) -> is_view(View) andalso is_count(Number);
is_valid({Kind, View, Number}) when Kind =:= granted; Kind =:= taken -> is_view(View) andalso is_count(Number);
is_valid({adopt, Number, _Edit}) -> is_count(Number);
is_valid({adopted, Number, _Answer}) -> is_count(Number);
is_valid({released, Number, Owner}) -> is_count(Number) andalso is_owner(Owner);
is_valid({Kind, Reference, Members}) when Kind =:= ask; Kind =:= turn ->
    is_reference_of(Reference) andalso all(fun is_member/1, Members);
is_valid({hello, Reference, Greatest, Members}) ->
    is_reference_of(Reference) andalso is_count(Greatest) andalso all(fun is_member/1, Members);
is_valid({Kind, Reference}) when Kind =:= busy; Kind =:= ready; Kind =:= cancel -> is_reference_of(Reference);
is_valid({propose, Number, Seed, Members, Reference}) ->
    is_count(Number) andalso is_long(Seed) andalso all(fun is_member/1, Members) andalso is_reference_of(Reference);
is_valid({offer, Number, Seed, Offer, Reference}) ->
    is_count(Number) andalso is_long(Seed) andalso is_offer(Offer) andalso (Reference =:= none orelse is_reference_of(Reference));
is_valid({list, Number, {List, Names}}) -> is_count(Number) andalso is_binary(List) andalso all(fun is_name/1, Names);
is_valid({abandon, Number, Refusal}) -> is_count(Number) andalso (is_atom(Refusal) orelse is_integer(Refusal));
is_valid(_Other) -> false.

%% A number that has greater ones.
is_count(Number) -> is_integer(Number) andalso Number >= 0 andalso Number < 16#8000000000000000.

is_long(Seed) -> is_integer(Seed) andalso Seed >= 0 andalso Seed =< 16#ffffffffffffffff.

is_life({Node, Incarnation}) -> is_atom(Node) andalso is_integer(Incarnation);
is_life(_Other) -> false.

is_view({Life, Number}) -> is_life(Life) andalso is_count(Number);
is_view(_Other) -> false.

is_at({View, Operation}) -> is_view(View) andalso is_count(Operation);
is_at(_Other) -> false.

is_reference_of({Life, Number}) -> is_life(Life) andalso is_count(Number);
is_reference_of(_Other) -> false.

is_member({Life, Number}) -> is_life(Life) andalso is_word(Number);
is_member(_Other) -> false.

is_request({Node, Number}) -> is_atom(Node) andalso is_count(Number);
is_request(_Other) -> false.

is_offer({Offer, Processes, Programs, Members}) ->
    is_binary(Offer) andalso are_processes(Processes) andalso are_programs(Programs) andalso all(fun is_member/1, Members);
is_offer(_Other) ->
    false.

are_names(Names, Is) ->
    is_map(Names) andalso all(fun({Name, Value}) -> is_name(Name) andalso Is(Value) end, maps:to_list(Names)).

are_programs(Programs) ->
    is_map(Programs) andalso all(fun({Id, Code}) -> is_binary(Id) andalso is_binary(Code) end, maps:to_list(Programs)).

are_processes(Groups) when is_list(Groups) -> all(fun is_group/1, Groups);
are_processes(Processes) -> are_names(Processes, fun is_process/1).

is_group({Node, Home, Processes}) -> is_word(Node) andalso is_life(Home) andalso all(fun is_grouped/1, Processes);
is_group(_Other) -> false.

is_grouped({Name, Serial, Pid}) -> is_name(Name) andalso is_word(Serial) andalso is_pid(Pid);
is_grouped({Name, Serial, Pid, _Term}) -> is_name(Name) andalso is_word(Serial) andalso is_pid(Pid);
is_grouped(_Other) -> false.

is_process({Owner, Pid, _Term, Home}) -> is_owner(Owner) andalso is_pid(Pid) andalso is_life(Home);
is_process(_Other) -> false.

is_loser({Name, Owner, {{Kind, Position}, Rival}}) ->
    is_name(Name) andalso is_owner(Owner) andalso lists:member(Kind, [exit, conflict, conflict_with])
        andalso lists:member(Position, [first, second]) andalso is_pid(Rival);
is_loser(_Other) -> false.

is_row({row, Registration = #{owner := Owner}, Pid, _Term, Home}) when map_size(Registration) =:= 5 ->
    is_owner(Owner) andalso has_options(Registration) andalso is_pid(Pid) andalso is_life(Home);
is_row(_Other) -> false.

is_made({register, Name, Row}) -> is_name(Name) andalso is_row(Row);
is_made({unregister, Name}) -> is_name(Name);
is_made({change, Name, Changes}) -> is_name(Name) andalso are_changes(Changes);
is_made({upload, Id, Code}) -> is_binary(Id) andalso is_binary(Code);
is_made(_Other) -> false.

%% A list that isn't proper has no length.
all(Is, Terms) when length(Terms) >= 0 -> lists:all(Is, Terms);
all(_Is, _Terms) -> false.

%% Returns the edit of a caller or of another node, or `bad' if it isn't valid.
-spec edit(term()) -> heal_edits:edit().
edit(Sent) ->
    case is_edit(Sent) of
        true -> received_edit(Sent);
        false -> bad
    end.

is_edit({register, Name, Row}) -> is_name(Name) andalso is_row(Row);
is_edit({adopt, Name, _Term, Options, Pid, On}) ->
    is_name(Name) andalso is_pid(Pid) andalso is_map(Options) andalso are_options(Options) andalso node(Pid) =:= On;
is_edit({unregister, Name, Owner}) -> is_name(Name) andalso (Owner =:= any orelse is_owner(Owner));
is_edit({change, Name, Owner, Changes}) -> is_name(Name) andalso (Owner =:= any orelse is_owner(Owner)) andalso are_changes(Changes);
is_edit({upload, Id, Code}) -> is_binary(Id) andalso is_binary(Code);
is_edit(_Other) -> false.

is_name(Name) -> heal_names:is_name(Name).

is_owner({Node, Serial}) -> is_word(Node) andalso is_word(Serial);
is_owner(_Other) -> false.

is_word(Word) -> is_integer(Word) andalso Word >= 0 andalso Word =< 16#ffffffff.

are_changes(Changes) -> is_map(Changes) andalso heal_names:are_options(Changes).

%% A complete registration but for its owner.
are_options(Options) -> map_size(Options) =:= 4 andalso has_options(Options).

has_options(#{stamp := Stamp, weight := Weight, extra := <<_:128>>, resolver := Resolver}) ->
    is_long(Stamp) andalso is_long(Weight) andalso is_resolver(Resolver);
has_options(_Options) ->
    false.

is_resolver({program, <<_:256>>}) -> true;
is_resolver(Builtin) -> Builtin =:= exit orelse Builtin =:= notify orelse Builtin =:= notify_all.
