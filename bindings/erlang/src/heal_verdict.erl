%% @private Decides a clash of two processes that `global' found under one name, for heal_resolver.
%%
%% The registration with the smaller owner, by node number and then by serial number, is the first one, and its resolver
%% decides. Owners order the two and are fields of the record; everything else goes by process and position, so two nodes
%% with one number never mix their processes up.
%%
%% No process is killed unless both registrations are known. If one is known, its owner keeps the name and the other one is
%% notified. If neither is, or if nobody has the program, the first keeps the name. An owner whose node is gone loses.
-module(heal_verdict).

-export([resolve/3]).

%% Owners in libheal's exchange of one name: any two in the order of the positions.
-define(FIRST, {1, 0}).
-define(SECOND, {2, 0}).

%% Returns the process that keeps the name, or `none', and delivers the notices to those that lose it. A crash would make
%% `global' delete the name.
-spec resolve(Name :: term(), pid(), pid()) -> pid() | none.
resolve(Name, Pid1, Pid2) ->
    try
        resolved(Name, Pid1, Pid2)
    catch
        Class:Reason:Stack ->
            logger:error("heal_resolver: resolving ~tw failed: ~p", [Name, {Class, Reason, Stack}]),
            keep(Name, Pid2, Pid1, "resolving failed")
    end.

resolved(Name, Pid1, Pid2) ->
    case [Pid || Pid <- [Pid1, Pid2], heal_facts:is_seen(node(Pid))] of
        [Pid] ->
            log(Name, Pid, "the other owner's node is gone"),
            Pid;
        _Both ->
            by_facts(Name, {Pid1, heal_facts:find(Name, Pid1)}, {Pid2, heal_facts:find(Name, Pid2)})
    end.

by_facts(Name, {Pid1, {ok, _, _}}, {Pid2, error}) ->
    keep(Name, Pid1, Pid2, "the other registration is unknown");
by_facts(Name, {Pid1, error}, {Pid2, {ok, _, _}}) ->
    keep(Name, Pid2, Pid1, "the other registration is unknown");
by_facts(Name, {Pid1, error}, {Pid2, error}) ->
    [{_, First}, {_, Second}] = lists:sort([{heal_facts:number(node(Pid)), Pid} || Pid <- [Pid1, Pid2]]),
    keep(Name, First, Second, "both registrations are unknown");
by_facts(Name, One, Other) ->
    [{_, First}, {_, Second}] = lists:sort([{order(Known), Known} || Known <- [One, Other]]),
    by_resolver(Name, First, Second).

%% Orders registrations alike on every node.
order({Pid, {ok, #{owner := Owner}, _}}) ->
    {Owner, node(Pid), Pid}.

by_resolver(Name, {FirstPid, {ok, First, FirstFacts}}, {SecondPid, {ok, Second, SecondFacts}}) ->
    case judged(Name, First, Second, FirstFacts, SecondFacts) of
        {ok, Clash = #{verdict := Verdict}} ->
            logger:info("heal_resolver: Name conflict ~tw, by ~0p: ~w",
                        [{Name, FirstPid, SecondPid}, maps:get(resolver, First), Verdict]),
            [heal_names:deliver(Name, Notice, {FirstPid, SecondPid}) || Notice <- heal_names:notices(Clash)],
            case Verdict of
                first -> FirstPid;
                second -> SecondPid;
                neither -> none
            end;
        error ->
            keep(Name, FirstPid, SecondPid, "nobody has its program")
    end.

%% Returns the clash with its verdict, or `error' if the program is missing.
judged(Name, First = #{resolver := {program, Id}}, Second, FirstFacts, SecondFacts) ->
    case heal_facts:program(Id) of
        {ok, Program} ->
            {ok, Record} = heal:record(record_name(Name), First, Second, heal_names:seed(), FirstFacts, SecondFacts),
            {ok, Answer, _Steps} = heal:judge(Program, Record),
            {ok, #{first => First, second => Second, verdict => verdict(Answer)}};
        error ->
            error
    end;
judged(Name, First, Second, _FirstFacts, _SecondFacts) ->
    {ok, by_builtin(record_name(Name), First#{owner := ?FIRST}, Second#{owner := ?SECOND, resolver := exit})}.

verdict(1) -> first;
verdict(2) -> second;
verdict(_Answer) -> neither.

%% Carries out an exchange of two sides that have this one name.
by_builtin(Name, First, Second) ->
    {ok, A} = heal:side(a),
    {ok, B} = heal:side(b),
    ok = heal:register(A, Name, First),
    ok = heal:register(B, Name, Second),
    Seed = heal_names:seed(),
    {ok, OfA} = heal:begin_exchange(A, 1, Seed, 0),
    {ok, OfB} = heal:begin_exchange(B, 1, Seed, 0),
    ok = heal:hear(A, OfB),
    ok = heal:hear(B, OfA),
    ok = heal:settle(A),
    {ok, List} = heal:close_list(B),
    {ok, _} = heal:close_list(A),
    ok = heal:hear_list(A, List),
    {ok, Outcome} = heal:finish(A),
    {ok, [Clash]} = heal:clashes(Outcome),
    Clash.

%% A name that heal can't hold is its digest in the record, in 32 hex digits.
record_name(Name) ->
    case heal_names:bytes(Name) of
        {ok, Bytes} -> Bytes;
        error -> binary:encode_hex(erlang:md5(term_to_binary(Name)))
    end.

%% Lets a process keep the name where no resolver can decide.
keep(Name, Pid, Loser, Reason) ->
    log(Name, Pid, Reason),
    heal_names:deliver(Name, {conflict, second}, {Pid, Loser}),
    Pid.

log(Name, Pid, Reason) ->
    logger:warning("heal_resolver: ~w keeps ~tw: ~s", [Pid, Name, Reason]).
