%% @private Owns the ETS table of heal_registry, so that the names outlive the process of the registry.
%%
%% The registry inherits the table if the keeper fails, and starts another keeper. The keeper ends with the process that started
%% the registry, usually a supervisor. Another process that starts the registry again takes that one's place.
-module(heal_keeper).

-behaviour(gen_server).

-export([hold/1, inherit/0, restart/1]).
-export([init/1, handle_call/3, handle_cast/2, handle_info/2]).

%% Keeps the table as long as this process lives. Creates the table unless there is one.
-spec hold(Parent :: pid()) -> ok.
hold(Parent) ->
    case gen_server:start({local, ?MODULE}, ?MODULE, Parent, []) of
        {ok, _} -> ok;
        {error, {already_started, Keeper}} -> hold(Keeper, Parent)
    end.

hold(Keeper, Parent) ->
    try
        gen_server:call(Keeper, {hold, Parent})
    catch
        %% The keeper is ending.
        exit:_ -> hold(Parent)
    end.

%% Makes the calling process the heir of the table.
-spec inherit() -> ok.
inherit() ->
    gen_server:call(?MODULE, inherit).

%% The keeper has failed, and the calling process owns the table: another keeper takes it.
-spec restart(Parent :: pid()) -> ok.
restart(Parent) ->
    ok = hold(Parent),
    ok = heal_table:give(whereis(?MODULE)),
    inherit().

init(Parent) ->
    ok = heal_table:create(),
    {ok, monitor(process, Parent)}.

handle_call({hold, Parent}, _From, Monitor) ->
    demonitor(Monitor, [flush]),
    {reply, ok, monitor(process, Parent)};
handle_call(inherit, {Heir, _}, Monitor) ->
    {reply, heal_table:bequeath(Heir), Monitor};
handle_call(_Unknown, _From, Monitor) ->
    {reply, {error, unknown_call}, Monitor}.

handle_cast(_Message, Monitor) ->
    {noreply, Monitor}.

handle_info({'DOWN', Monitor, process, _, _}, Monitor) ->
    {stop, normal, Monitor};
handle_info(_Message, Monitor) ->
    {noreply, Monitor}.
