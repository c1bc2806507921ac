%% @private Names, registrations and notices, as heal_resolver and heal_registry use them.
-module(heal_names).

-export([bytes/1, name/1, is_name/1, is_same/2, options/1, are_options/1, registration/3, serial/0, seed/0, uptime/0]).
-export([notices/1, notices/2, notice/3, deliver/3]).
-export_type([notice/0]).

-type notice() :: {exit | conflict | conflict_with, first | second}.

-define(NOTHING, <<0:128>>).

%% Reads an atom, a string or a binary as a name of heal.
-spec bytes(term()) -> {ok, heal:name()} | error.
bytes(Name) when is_atom(Name) ->
    valid(atom_to_binary(Name));
bytes(Name) when is_binary(Name) ->
    valid(Name);
bytes(Name) when is_list(Name) ->
    case is_text(Name) of
        true -> valid(list_to_binary(Name));
        false -> error
    end;
bytes(_Name) ->
    error.

%% A string, not a list that list_to_binary/1 would flatten.
is_text([Byte | Rest]) when is_integer(Byte), Byte >= 0, Byte < 256 -> is_text(Rest);
is_text(Rest) -> Rest =:= [].

%% Returns the name under which a term is registered: itself if it is printable, or else `$' and its MD5 digest. A digest that
%% two terms share does no harm: their rows have the terms.
-spec name(Term :: term()) -> heal:name().
name(Term) ->
    case bytes(Term) of
        {ok, Bytes} ->
            Bytes;
        error ->
            Digest = erlang:md5(term_to_binary(Term, [deterministic, {minor_version, 2}])),
            <<"$", (binary:part(base64:encode(Digest), 0, 22))/binary>>
    end.

%% Returns whether this is a name of heal.
-spec is_name(term()) -> boolean().
is_name(Name) when byte_size(Name) >= 1, byte_size(Name) =< 32 -> is_printable(Name);
is_name(_Other) -> false.

%% Returns whether two terms that have one name are that name: one term, or two writings of a printable one.
-spec is_same(term(), term()) -> boolean().
is_same(Term, Term) -> true;
is_same(One, Other) -> bytes(One) =/= error andalso bytes(One) =:= bytes(Other).

valid(Bytes) when byte_size(Bytes) >= 1, byte_size(Bytes) =< 32 ->
    case is_printable(Bytes) of
        true -> {ok, Bytes};
        false -> error
    end;
valid(_Bytes) ->
    error.

is_printable(<<Byte, Rest/binary>>) when Byte >= 16#21, Byte =< 16#7e -> is_printable(Rest);
is_printable(Rest) -> Rest =:= <<>>.

%% Returns the options of a registration with all of stamp, weight, extra and resolver. Raises `badarg' for a bad option, and
%% `{bad_setting, resolver, Value}' if the application's setting `resolver' isn't a resolver.
-spec options(map()) -> map().
options(Options) when is_map(Options) ->
    case are_options(Options) of
        true -> #{stamp => stamp(Options), weight => maps:get(weight, Options, 0), extra => maps:get(extra, Options, ?NOTHING),
                  resolver => resolver(Options)};
        false -> error(badarg, [Options])
    end;
options(Options) ->
    error(badarg, [Options]).

stamp(#{stamp := Stamp}) -> Stamp;
stamp(_Options) -> erlang:system_time(millisecond).

%% Returns whether these are some of the options of a registration.
-spec are_options(term()) -> boolean().
are_options(Options) ->
    is_map(Options) andalso lists:all(fun is_option/1, maps:to_list(Options)).

is_option({Key, Word}) when Key =:= stamp; Key =:= weight -> is_integer(Word) andalso Word >= 0 andalso Word < 1 bsl 64;
is_option({extra, <<_:128>>}) -> true;
is_option({resolver, Builtin}) when is_atom(Builtin) -> lists:member(Builtin, [exit, notify, notify_all]);
is_option({resolver, {program, <<_:256>>}}) -> true;
is_option(_Other) -> false.

resolver(#{resolver := Resolver}) ->
    Resolver;
resolver(Options) ->
    Resolver = application:get_env(heal, resolver, exit),
    case is_option({resolver, Resolver}) of
        true -> Resolver;
        false -> error({bad_setting, resolver, Resolver}, [Options])
    end.

%% Makes the registration of an owner. The options are as `options/1' returns them.
-spec registration(Node :: non_neg_integer(), Serial :: non_neg_integer(), map()) -> heal:registration().
registration(Node, Serial, Options) ->
    Options#{owner => {Node, Serial}}.

%% Returns a number that this run of the node gave to no other owner, until 2^32 are used.
-spec serial() -> 1..16#ffffffff.
serial() ->
    case atomics:add_get(heal:serials(), 1, 1) band 16#ffffffff of
        0 -> serial();
        Serial -> Serial
    end.

%% Returns a random seed.
-spec seed() -> 0..16#ffffffffffffffff.
seed() ->
    rand:uniform(1 bsl 64) - 1.

%% Returns how long this node is up, in milliseconds.
-spec uptime() -> non_neg_integer().
uptime() ->
    erlang:convert_time_unit(erlang:monotonic_time() - erlang:system_info(start_time), native, millisecond).

%% Returns the notices of a clash, each with the position of the owner that receives it. Two owners may be equal by mistake,
%% so the verdict gives the positions. libheal has no notices for a program's verdict, whose losers are notified as by `notify'
%% and `notify_all', nor for a loser whose rival was withdrawn, which heal_home registers again.
-spec notices(heal:clash()) -> [notice()].
notices(#{verdict := Verdict, first := #{resolver := Resolver}}) ->
    notices(Verdict, Resolver).

%% The same for the first registration's resolver.
-spec notices(Verdict :: first | second | neither, Resolver :: term()) -> [notice()].
notices(Verdict, Resolver) ->
    [Notice || Position <- [first, second], Notice <- [notice(Position, Verdict, Resolver)], Notice =/= none].

%% Returns the notice that the owner at a position receives.
-spec notice(first | second, Verdict :: first | second | neither, Resolver :: term()) -> notice() | none.
notice(Position, Position, _Resolver) -> none;
notice(Position, neither, _Resolver) -> {conflict_with, Position};
notice(Position, _Other, Resolver) -> {kind(Resolver), Position}.

kind(exit) -> exit;
kind(_NotifyOrProgram) -> conflict.

%% Delivers a notice as the resolvers of `global' do. A process that is `undefined' isn't notified.
-spec deliver(Name :: term(), notice(), {First :: pid() | undefined, Second :: pid() | undefined}) -> ok.
deliver(Name, {Kind, first}, {Pid, Other}) -> notify(Kind, Name, Pid, Other);
deliver(Name, {Kind, second}, {Other, Pid}) -> notify(Kind, Name, Pid, Other).

notify(_Kind, _Name, undefined, _Other) ->
    ok;
notify(exit, Name, Pid, _Other) ->
    logger:info("heal: Name conflict terminating ~tw", [{Name, Pid}]),
    exit(Pid, kill),
    ok;
notify(conflict, Name, Pid, _Other) ->
    Pid ! {global_name_conflict, Name},
    ok;
notify(conflict_with, Name, Pid, Other) ->
    Pid ! {global_name_conflict, Name, Other},
    ok.
