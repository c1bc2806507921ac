%% @doc The calls of libheal: programs, sides of exchanges, and their outcomes.
%%
%% A program, a side, an outcome and a replica are references that the garbage collector frees. Every process may use them. Any number of
%% processes read one at the same time; a call that changes a side waits until the others have ended. A call returns what its type
%% shows, or `{error, {Number, Words}}' with the number of a refusal and its words; docs/REFUSALS.md lists them. A refused call
%% changes nothing. A term of another type is a `badarg'.
%%
%% Two halves that meet carry out an exchange. One is side `a', the other side `b':
%%
%% 1. {@link begin_exchange/4} returns the offer for the other half.
%% 2. {@link hear/2} takes the other's offer, and {@link settle/1} judges every clash.
%% 3. {@link withdraw/2} withdraws a name whose owner is gone; {@link close_list/1} returns the list for the other half.
%% 4. {@link hear_list/2} takes the other's list, and {@link finish/1} replaces the table by the merge.
%%
%% {@link abandon/1} ends an exchange without a merge, and {@link give_up/1} does so on any side.
-module(heal).

-export([load/1, judge/2, program_id/1, record/6, refusal_words/1, peek/1]).
-export([side/1, side/2, upload/2, forget/2, programs/1, code/2, register/3, register_all/2, unregister/2, whereis/2]).
-export([count/1, rows/1, values/2]).
-export([query/1, events/1, renew/1, give_up/1]).
-export([begin_exchange/4, hear/2, settle/1, withdraw/2, close_list/1, hear_list/2, finish/1, abandon/1]).
-export([number/1, merged/1, clashes/1, rulings/1, losses/2]).
-export([replica/2, replica_query/1, replica_register/3, replica_unregister/2, replica_upload/2, replica_limit/2, replica_begin/2]).
-export([replica_lead/1, replica_snapshot/1, replica_follow/2, replica_apply/2, replica_whereis/2, replica_rows/1]).
-export([replica_side/2, replica_change/3, log_front/1]).
-export([serials/0]).
%% Calls of these are made by name: a fun of this module may run in an instance of it that is being loaded, before its NIF is.
-export([upload_in_turn/2, forget_in_turn/2, programs_in_turn/1, code_in_turn/2, query_in_turn/1, register_in_turn/3]).
-export([register_all_in_turn/2, unregister_in_turn/2, whereis_in_turn/2, count_in_turn/1, rows_in_turn/1, values_in_turn/2]).
-export([begin_exchange_in_turn/4, hear_in_turn/2, settle_in_turn/1, withdraw_in_turn/2, close_list_in_turn/1]).
-export([hear_list_in_turn/2, finish_in_turn/1, abandon_in_turn/1, events_in_turn/1, renew_in_turn/1, give_up_in_turn/1]).
-export([replica_query_in_turn/1, replica_register_in_turn/3, replica_unregister_in_turn/2, replica_upload_in_turn/2]).
-export([replica_limit_in_turn/2, replica_begin_in_turn/2, replica_lead_in_turn/1, replica_snapshot_in_turn/1]).
-export([replica_follow_in_turn/2, replica_apply_in_turn/2, replica_whereis_in_turn/2, replica_rows_in_turn/1]).
-export([replica_side_in_turn/2, replica_change_in_turn/3]).
-export_type([program/0, side/0, outcome/0, name/0, owner/0, resolver/0, registration/0, values/0, facts/0, clash/0, notice/0, ruling/0, loss/0]).
-export_type([state/0, head/0, refusal/0, replica/0, position/0, replica_state/0]).

-on_load(init/0).

-define(SERIALS, {?MODULE, serials}).
%% How many names a side may have by default.
-define(NAMES, 4096).
%% A short call of another process ends while this one yields a few times.
-define(YIELDS, 4).

-compile({no_auto_import, [register/2, unregister/1, whereis/1]}).

-opaque program() :: reference().
-opaque side() :: reference().
-opaque outcome() :: reference().
-type name() :: binary().
%% 1 to 32 bytes from 16#21 to 16#7e.
-type owner() :: {Node :: 0..16#ffffffff, Serial :: 0..16#ffffffff}.
-type word() :: 0..16#ffffffffffffffff.
-type id() :: <<_:256>>.
-type resolver() :: exit | notify | notify_all | {program, id()}.
-type registration() :: #{owner := owner(), stamp := word(), weight => word(), extra => <<_:128>>, resolver => resolver()}.
%% Without weight and extra bytes these are zero; without a resolver it is `exit'. Results have all keys.
-type values() :: {Serial :: 0..16#ffffffff, Stamp :: word(),
                   {Node :: 0..16#ffffffff, Weight :: word(), Extra :: <<_:128>>, resolver()}}.
%% A registration without the names of its fields. The rows that a call returns share what they have alike.
-type facts() :: #{size := word(), uptime := word()}.
-type notice() :: {exit, owner()} | {conflict, owner()} | {conflict_with, owner(), Other :: owner()}.
-type clash() :: #{
    name := name(),
    first := registration(),
    second := registration(),
    word := word(),
    verdict := first | second | neither,
    keeps := first | second | neither,
    first_half := a | b,
    notices := [notice()]
}.
%% `keeps' is the verdict, or `neither' if the winner was withdrawn; then nobody is notified. `first_half' registered `first'.
-type ruling() :: {name(), First :: owner(), Second :: owner(), FirstHalf :: a | b, Verdict :: first | second | neither,
                   OfFirst :: exit | notify | notify_all | program}.
%% A clash in short.
-type loss() :: {name(), Owner :: owner(), first | second, Verdict :: first | second | neither,
                 OfFirst :: exit | notify | notify_all | program, Winner :: values() | none}.
%% A clash in short, for a half whose owner has the registration at this position and doesn't keep the name. `Winner' keeps it.
-type state() :: #{
    side := a | b,
    open := word() | none,
    latest := word() | none,
    missing := offer | {ruling, Clash :: non_neg_integer()} | own_list | list | nothing | none,
    withdrawn := [name()]
}.
%% `open' is the number of the open exchange, and `missing' the first thing that it lacks; `latest' is the greatest number begun.
-type head() :: #{kind := offer | list, side := a | b, number := word(), seed := word() | none}.
%% `seed' is that of an offer.
-opaque replica() :: reference().
-type position() :: {Primary :: {Node :: 0..16#ffffffff, Incarnation :: word()}, View :: word(), Op :: word()}.
-type replica_state() :: #{
    at := position(),
    names := non_neg_integer(),
    limit := pos_integer(),
    latest := word() | none,
    is_primary := boolean()
}.
%% `latest' is the greatest number of an exchange that the half began.
-type refusal() :: {Number :: pos_integer(), Words :: binary()}.
-type result() :: ok | {error, refusal()}.
-type result(Value) :: {ok, Value} | {error, refusal()}.

%% Runs when the module is loaded, never concurrently. A later version of the module goes on with the counter.
init() ->
    case persistent_term:get(?SERIALS, none) of
        none -> persistent_term:put(?SERIALS, atomics:new(1, [{signed, false}]));
        _ -> ok
    end,
    erlang:load_nif(filename:join(priv_dir(), "heal_nif"), 0).

%% The folder of the NIF. Where the application's folder isn't named after it, this is next to that of the file being loaded:
%% during an upgrade `code:which/1' returns the file of the module that is still in use.
priv_dir() ->
    case code:priv_dir(heal) of
        {error, bad_name} -> filename:join(filename:dirname(filename:dirname(code:where_is_file("heal.beam"))), "priv");
        Dir -> Dir
    end.

%% @doc Reads untrusted bytes as a program (RFC 9669) and verifies it. The words of a refusal end with the faulty slot.
-spec load(Code :: binary()) -> result(program()).
load(_Code) -> missing().

%% @doc Runs the program on the record of a clash. It ends after at most as many steps as it has instructions.
-spec judge(program(), Record :: <<_:1280>>) -> {ok, R0 :: word(), Steps :: non_neg_integer()} | {error, refusal()}.
judge(_Program, _Record) -> missing().

%% @doc Returns the program's id: the SHA-256 digest of its bytes.
-spec program_id(program()) -> result(id()).
program_id(_Program) -> missing().

%% @doc Builds the record of a clash of two registrations of a name at a word.
-spec record(name(), First :: registration(), Second :: registration(), word(), OfFirst :: facts(), OfSecond :: facts()) ->
    result(<<_:1280>>).
record(_Name, _First, _Second, _Word, _OfFirst, _OfSecond) -> missing().

%% @doc Returns the words of a refusal, or `<<"unknown refusal">>'.
-spec refusal_words(Number :: 0..16#ffffffff) -> binary().
refusal_words(_Number) -> missing().

%% @doc Reads the first bytes of a message, and nothing else: its kind, its sender and its number.
-spec peek(Message :: binary()) -> result(head()).
peek(_Message) -> missing().

%% @doc Creates an idle side without names, which may have 4,096.
-spec side(a | b) -> result(side()).
side(Id) -> side(Id, ?NAMES).

%% @doc Creates an idle side without names, which may have `Names', from 1 to 1,048,576.
-spec side(a | b, Names :: word()) -> result(side()).
side(_Id, _Names) -> missing().

%% @doc Verifies a program, keeps it for registrations of this side, and returns its id.
-spec upload(side(), Code :: binary()) -> result(id()).
upload(Side, Code) -> turn(upload_in_turn, [Side, Code]).

%% @doc Forgets an uploaded program that no row names.
-spec forget(side(), id()) -> result().
forget(Side, Id) -> turn(forget_in_turn, [Side, Id]).

%% @doc Returns the ids of the uploaded programs, in order.
-spec programs(side()) -> result([id()]).
programs(Side) -> turn(programs_in_turn, [Side]).

%% @doc Returns the code of an uploaded program, or of one that a row names.
-spec code(side(), id()) -> result(Code :: binary()).
code(Side, Id) -> turn(code_in_turn, [Side, Id]).

%% @doc Registers a name on an idle side.
-spec register(side(), name(), registration()) -> result().
register(Side, Name, Registration) -> turn(register_in_turn, [Side, Name, Registration]).

%% @doc Registers names on an idle side, one after the other. A refusal ends that, and the names before it stay.
-spec register_all(side(), [{name(), registration() | values()}]) -> result().
register_all(Side, Rows) -> turn(register_all_in_turn, [Side, Rows]).

%% @doc Unregisters a name on an idle side.
-spec unregister(side(), name()) -> result().
unregister(Side, Name) -> turn(unregister_in_turn, [Side, Name]).

%% @doc Looks a name up.
-spec whereis(side(), name()) -> result(registration()).
whereis(Side, Name) -> turn(whereis_in_turn, [Side, Name]).

%% @doc Returns the number of names in the side's table.
-spec count(side()) -> result(non_neg_integer()).
count(Side) -> turn(count_in_turn, [Side]).

%% @doc Returns the side's table in the order of names.
-spec rows(side()) -> result([{name(), registration()}]).
rows(Side) -> turn(rows_in_turn, [Side]).

%% @doc Looks names up. Returns the rows of those that are registered, and those that aren't, both in no order.
-spec values(side(), [name()]) -> {ok, [{name(), values()}], Lacking :: [name()]} | {error, refusal()}.
values(Side, Names) -> turn(values_in_turn, [Side, Names]).

%% @doc Opens an exchange and returns the offer for the other half. Both halves use the same number and seed.
-spec begin_exchange(side(), Number :: word(), Seed :: word(), Uptime :: word()) -> result(Offer :: binary()).
begin_exchange(Side, Number, Seed, Uptime) -> turn(begin_exchange_in_turn, [Side, Number, Seed, Uptime]).

%% @doc Hears the offer of the other half.
-spec hear(side(), Offer :: binary()) -> result().
hear(Side, Offer) -> turn(hear_in_turn, [Side, Offer]).

%% @doc Judges every clash that has no ruling, at the word that the other half judges it at too.
-spec settle(side()) -> result().
settle(Side) -> turn(settle_in_turn, [Side]).

%% @doc Withdraws a name in the open exchange.
-spec withdraw(side(), name()) -> result().
withdraw(Side, Name) -> turn(withdraw_in_turn, [Side, Name]).

%% @doc Closes the list of withdrawn names and returns the list for the other half.
-spec close_list(side()) -> result(List :: binary()).
close_list(Side) -> turn(close_list_in_turn, [Side]).

%% @doc Hears the list of the other half.
-spec hear_list(side(), List :: binary()) -> result().
hear_list(Side, List) -> turn(hear_list_in_turn, [Side, List]).

%% @doc Replaces the table by the merge and closes the exchange.
-spec finish(side()) -> result(outcome()).
finish(Side) -> turn(finish_in_turn, [Side]).

%% @doc Closes the exchange and keeps the table, without the withdrawn names.
-spec abandon(side()) -> result().
abandon(Side) -> turn(abandon_in_turn, [Side]).

%% @doc Returns what the side knows of its exchange.
-spec query(side()) -> result(state()).
query(Side) -> turn(query_in_turn, [Side]).

%% @doc Returns the number of events in the side's journal, at most 16 for each name that it may have.
-spec events(side()) -> result(non_neg_integer()).
events(Side) -> turn(events_in_turn, [Side]).

%% @doc Starts a fresh journal on an idle side.
-spec renew(side()) -> result().
renew(Side) -> turn(renew_in_turn, [Side]).

%% @doc Closes the open exchange as {@link abandon/1} does, if there is one, and starts a fresh journal, also of a full side.
-spec give_up(side()) -> result().
give_up(Side) -> turn(give_up_in_turn, [Side]).

%% @doc Returns the number of the exchange.
-spec number(outcome()) -> result(word()).
number(_Outcome) -> missing().

%% @doc Returns the number of names in the merged table.
-spec merged(outcome()) -> result(non_neg_integer()).
merged(_Outcome) -> missing().

%% @doc Returns the clashes in the order of names, each with its verdict and its notices.
-spec clashes(outcome()) -> result([clash()]).
clashes(_Outcome) -> missing().

%% @doc Returns the clashes in the order of names, in short.
-spec rulings(outcome()) -> result([ruling()]).
rulings(_Outcome) -> missing().

%% @doc Returns the number of clashes, and those whose name this half doesn't keep, in the order of names.
-spec losses(outcome(), a | b) -> {ok, Clashes :: non_neg_integer(), [loss()]} | {error, refusal()}.
losses(_Outcome, _Half) -> missing().

%% @doc Starts a life of a node: a replica with an empty half, as the primary of its first view. No two lives of a node may share an
%% incarnation.
-spec replica(Node :: 0..16#ffffffff, Incarnation :: word()) -> result(replica()).
replica(_Node, _Incarnation) -> missing().

%% @doc Returns what the replica knows.
-spec replica_query(replica()) -> result(replica_state()).
replica_query(Replica) -> turn(replica_query_in_turn, [Replica]).

%% @doc Registers a name, as the primary, and returns the entry for the log and the backups.
-spec replica_register(replica(), name(), registration()) -> result(Entry :: binary()).
replica_register(Replica, Name, Registration) -> turn(replica_register_in_turn, [Replica, Name, Registration]).

%% @doc Unregisters a name, as the primary, and returns the entry.
-spec replica_unregister(replica(), name()) -> result(Entry :: binary()).
replica_unregister(Replica, Name) -> turn(replica_unregister_in_turn, [Replica, Name]).

%% @doc Keeps a program for registrations, as the primary, and returns the entry.
-spec replica_upload(replica(), program()) -> result(Entry :: binary()).
replica_upload(Replica, Program) -> turn(replica_upload_in_turn, [Replica, Program]).

%% @doc Sets how many names registrations may bring the table to, as the primary, and returns the entry.
-spec replica_limit(replica(), Names :: word()) -> result(Entry :: binary()).
replica_limit(Replica, Names) -> turn(replica_limit_in_turn, [Replica, Names]).

%% @doc Records the number of the next exchange, as the primary, and returns the entry: after `replica_side', and before
%% `begin_exchange'.
-spec replica_begin(replica(), Number :: word()) -> result(Entry :: binary()).
replica_begin(Replica, Number) -> turn(replica_begin_in_turn, [Replica, Number]).

%% @doc Starts a view with the half as it is.
-spec replica_lead(replica()) -> result().
replica_lead(Replica) -> turn(replica_lead_in_turn, [Replica]).

%% @doc Returns the position and the half, for the other nodes and for the log.
-spec replica_snapshot(replica()) -> result(Snapshot :: binary()).
replica_snapshot(Replica) -> turn(replica_snapshot_in_turn, [Replica]).

%% @doc Takes the position and the half of a snapshot.
-spec replica_follow(replica(), Snapshot :: binary()) -> result().
replica_follow(Replica, Snapshot) -> turn(replica_follow_in_turn, [Replica, Snapshot]).

%% @doc Carries the edit of an entry out, unless the replica has it already.
-spec replica_apply(replica(), Entry :: binary()) -> result().
replica_apply(Replica, Entry) -> turn(replica_apply_in_turn, [Replica, Entry]).

%% @doc Looks a name up.
-spec replica_whereis(replica(), name()) -> result(registration()).
replica_whereis(Replica, Name) -> turn(replica_whereis_in_turn, [Replica, Name]).

%% @doc Returns the table in the order of names.
-spec replica_rows(replica()) -> result([{name(), registration()}]).
replica_rows(Replica) -> turn(replica_rows_in_turn, [Replica]).

%% @doc Returns an idle side with what the replica has, for an exchange with the other half's primary.
-spec replica_side(replica(), a | b) -> result(side()).
replica_side(Replica, Id) -> turn(replica_side_in_turn, [Replica, Id]).

%% @doc Starts a view with what an exchange left in the side. `From' is the position after `replica_begin'.
-spec replica_change(replica(), From :: position(), side()) -> result().
replica_change(Replica, From, Side) -> turn(replica_change_in_turn, [Replica, From, Side]).

%% @doc Returns what a log begins with, and the number of its bytes.
-spec log_front(Log :: binary()) -> result(empty | cut | {entry | snapshot, Size :: pos_integer()}).
log_front(_Log) -> missing().

%% @private Returns the counter of heal_names:serial/0.
-spec serials() -> atomics:atomics_ref().
serials() ->
    persistent_term:get(?SERIALS).

%% Makes a call on a side. While a call of another process runs on it, this one waits: it lets other
%% processes run, and then sleeps.
turn(Function, Args) ->
    turn(Function, Args, ?YIELDS).

turn(Function, Args, Yields) ->
    case apply(?MODULE, Function, Args) of
        busy when Yields > 0 -> erlang:yield(), turn(Function, Args, Yields - 1);
        busy -> receive after 1 -> turn(Function, Args, 0) end;
        Answer -> Answer
    end.

%% The functions of the NIF that return `busy' while another call runs on their first argument.
%% @private
upload_in_turn(_Side, _Code) -> missing().
%% @private
forget_in_turn(_Side, _Id) -> missing().
%% @private
programs_in_turn(_Side) -> missing().
%% @private
code_in_turn(_Side, _Id) -> missing().
%% @private
query_in_turn(_Side) -> missing().
%% @private
register_in_turn(_Side, _Name, _Registration) -> missing().
%% @private
register_all_in_turn(_Side, _Rows) -> missing().
%% @private
unregister_in_turn(_Side, _Name) -> missing().
%% @private
whereis_in_turn(_Side, _Name) -> missing().
%% @private
count_in_turn(_Side) -> missing().
%% @private
rows_in_turn(_Side) -> missing().
%% @private
values_in_turn(_Side, _Names) -> missing().
%% @private
begin_exchange_in_turn(_Side, _Number, _Seed, _Uptime) -> missing().
%% @private
hear_in_turn(_Side, _Offer) -> missing().
%% @private
settle_in_turn(_Side) -> missing().
%% @private
withdraw_in_turn(_Side, _Name) -> missing().
%% @private
close_list_in_turn(_Side) -> missing().
%% @private
hear_list_in_turn(_Side, _List) -> missing().
%% @private
finish_in_turn(_Side) -> missing().
%% @private
abandon_in_turn(_Side) -> missing().
%% @private
events_in_turn(_Side) -> missing().
%% @private
renew_in_turn(_Side) -> missing().
%% @private
give_up_in_turn(_Side) -> missing().
%% @private
replica_query_in_turn(_Replica) -> missing().
%% @private
replica_register_in_turn(_Replica, _Name, _Registration) -> missing().
%% @private
replica_unregister_in_turn(_Replica, _Name) -> missing().
%% @private
replica_upload_in_turn(_Replica, _Program) -> missing().
%% @private
replica_limit_in_turn(_Replica, _Names) -> missing().
%% @private
replica_begin_in_turn(_Replica, _Number) -> missing().
%% @private
replica_lead_in_turn(_Replica) -> missing().
%% @private
replica_snapshot_in_turn(_Replica) -> missing().
%% @private
replica_follow_in_turn(_Replica, _Snapshot) -> missing().
%% @private
replica_apply_in_turn(_Replica, _Entry) -> missing().
%% @private
replica_whereis_in_turn(_Replica, _Name) -> missing().
%% @private
replica_rows_in_turn(_Replica) -> missing().
%% @private
replica_side_in_turn(_Replica, _Id) -> missing().
%% @private
replica_change_in_turn(_Replica, _From, _Side) -> missing().

missing() ->
    erlang:nif_error(nif_not_loaded).
