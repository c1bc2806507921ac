%% Collects what a node logs, for tests.
-module(heal_logs).

-export([collect/1, collect_here/0, texts/1, texts_here/0, log/2]).

%% Collects events of level notice and above.
collect(Of) ->
    ok = heal_cluster:call(Of, ?MODULE, collect_here, []).

collect_here() ->
    persistent_term:put(?MODULE, atomics:new(1, [])),
    _ = logger:remove_handler(?MODULE),
    ok = logger:set_primary_config(level, notice),
    ok = logger:set_handler_config(default, level, critical),
    logger:add_handler(?MODULE, ?MODULE, #{}).

log(#{msg := Message}, _Config) ->
    Text = case Message of
        {string, String} -> String;
        {report, Report} -> io_lib:format("~p", [Report]);
        {Format, Args} -> io_lib:format(Format, Args)
    end,
    Number = atomics:add_get(persistent_term:get(?MODULE), 1, 1),
    persistent_term:put({?MODULE, Number}, unicode:characters_to_list(Text)).

%% The texts so far, in their order.
texts(Of) ->
    heal_cluster:call(Of, ?MODULE, texts_here, []).

texts_here() ->
    [persistent_term:get({?MODULE, Number}, "") || Number <- lists:seq(1, atomics:get(persistent_term:get(?MODULE), 1))].
