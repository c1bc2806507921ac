%% A node of a half, which keeps a log in a folder: erl -noshell -pa ebin out -run heal_node main -extra FOLDER NUMBER.
%% bindings/c/node.c describes its requests. It may be killed at any moment: what it answered with 0 is in its log. Only one process at a
%% time may use the folder.
-module(heal_node).

-export([main/0]).

-record(node, {replica :: heal:replica(), log :: file:fd()}).

%% A node that can't write, as on a full disk, ends: standard output has answers only.
main() ->
    try
        [Folder, Number] = init:get_plain_arguments(),
        ok = file:set_cwd(Folder),
        ok = io:setopts(standard_io, [binary, {encoding, latin1}]),
        serve(restart(list_to_integer(Number)))
    catch
        error:Reason:Stack ->
            io:format(standard_error, "heal_node: ~p at ~p~n", [Reason, hd(Stack)]),
            halt(1)
    end.

%% Starts a new life with what the log has.
restart(Number) ->
    {ok, Replica} = heal:replica(Number, next_incarnation()),
    ok = read_log(Replica, case file:read_file("log") of {ok, Log} -> Log; {error, enoent} -> <<>> end),
    ok = heal:replica_lead(Replica),
    #node{replica = Replica, log = new_log(Replica)}.

%% Stores the next incarnation, and returns it.
next_incarnation() ->
    Next = case file:read_file("incarnation") of
        {ok, Last} -> binary_to_integer(Last) + 1;
        {error, enoent} -> 1
    end,
    ok = file:close(replace("incarnation", integer_to_binary(Next))),
    Next.

%% Replaces a file: after a crash it has its old bytes or these.
replace(Name, Bytes) ->
    {ok, File} = file:open("new", [raw, binary, write]),
    ok = file:write(File, Bytes),
    ok = file:sync(File),
    ok = file:rename("new", Name),
    {ok, Here} = file:open(".", [raw, read, directory]),
    _ = file:sync(Here),
    ok = file:close(Here),
    File.

%% Follows the snapshot of a log and applies its entries, up to the last whole one.
read_log(Replica, Log) ->
    case heal:log_front(Log) of
        {ok, {Kind, Size}} ->
            <<Message:Size/binary, Rest/binary>> = Log,
            ok = case Kind of
                snapshot -> heal:replica_follow(Replica, Message);
                entry -> heal:replica_apply(Replica, Message)
            end,
            read_log(Replica, Rest);
        {ok, _EmptyOrCut} ->
            ok
    end.

new_log(Replica) ->
    {ok, Snapshot} = heal:replica_snapshot(Replica),
    replace("log", Snapshot).

start_log(Node = #node{replica = Replica, log = Old}) ->
    ok = file:close(Old),
    Node#node{log = new_log(Replica)}.

append(Log, Entry) ->
    ok = file:write(Log, Entry),
    ok = file:datasync(Log).

%% A request that the end of the input cuts isn't carried out.
serve(Node) ->
    case read(9) of
        <<Request, Size:64/native>> ->
            case read(Size) of
                Body when byte_size(Body) =:= Size ->
                    {Number, Answer, Next} = obey(Request, Body, Node),
                    ok = file:write(standard_io, <<Number:32/native, (byte_size(Answer)):64/native, Answer/binary>>),
                    serve(Next);
                _Cut ->
                    halt(0)
            end;
        _EndOrCut ->
            halt(0)
    end.

%% Returns this many bytes of the input, or fewer at its end.
read(0) ->
    <<>>;
read(Size) ->
    case file:read(standard_io, Size) of
        {ok, Bytes} -> Bytes;
        eof -> <<>>
    end.

%% Carries a request out, and returns the number and the bytes of the answer.
obey($R, Name, Node = #node{replica = Replica}) ->
    edited(heal:replica_register(Replica, Name, #{owner => {1, 1}, stamp => 0}), Node);
obey($U, Name, Node = #node{replica = Replica}) ->
    edited(heal:replica_unregister(Replica, Name), Node);
obey($A, Entry, Node = #node{replica = Replica, log = Log}) ->
    case heal:replica_apply(Replica, Entry) of
        ok -> ok = append(Log, Entry), {0, <<>>, Node};
        {error, {Number, _}} -> {Number, <<>>, Node}
    end;
obey($F, Snapshot, Node = #node{replica = Replica}) ->
    case heal:replica_follow(Replica, Snapshot) of
        ok -> {0, <<>>, start_log(Node)};
        {error, {Number, _}} -> {Number, <<>>, Node}
    end;
obey($L, <<>>, Node = #node{replica = Replica}) ->
    ok = heal:replica_lead(Replica),
    Next = start_log(Node),
    {ok, Snapshot} = heal:replica_snapshot(Replica),
    {0, Snapshot, Next};
obey($W, Name, Node = #node{replica = Replica}) ->
    case heal:replica_whereis(Replica, Name) of
        {ok, _} -> {0, <<>>, Node};
        {error, {Number, _}} -> {Number, <<>>, Node}
    end.

%% An edit is answered once its entry is in the log.
edited({ok, Entry}, Node = #node{log = Log}) ->
    ok = append(Log, Entry),
    {0, Entry, Node};
edited({error, {Number, _}}, Node) ->
    {Number, <<>>, Node}.
