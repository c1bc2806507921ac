%% A server that answers `ping' with its node: an example of a process that heal_registry names.
-module(db_server).

-behaviour(gen_server).

-export([init/1, handle_call/3, handle_cast/2]).

init([]) ->
    {ok, none}.

handle_call(ping, _From, State) ->
    {reply, {pong, node()}, State}.

handle_cast(_Message, State) ->
    {noreply, State}.
