%% @private The application: a supervisor of heal_facts, heal_resolver and, if nodes are configured, of heal_registry.
-module(heal_app).

-behaviour(application).
-behaviour(supervisor).

-export([start/2, prep_stop/1, stop/1, init/1]).

start(_Type, _Args) ->
    supervisor:start_link({local, heal_sup}, ?MODULE, []).

%% The alarms of the registry are over when it is stopped.
prep_stop(State) ->
    _ = heal_table:is_running() andalso heal_problems:over([]),
    State.

stop(_State) ->
    ok.

init([]) ->
    {ok, Nodes} = application:get_env(heal, nodes),
    Registry = [worker(heal_registry, [#{nodes => Nodes}]) || Nodes =/= []],
    Workers = [worker(heal_facts, []), worker(heal_resolver, []) | Registry],
    {ok, {#{strategy => one_for_one, intensity => 10, period => 10}, Workers}}.

worker(Module, Args) ->
    #{id => Module, start => {Module, start_link, Args}}.
