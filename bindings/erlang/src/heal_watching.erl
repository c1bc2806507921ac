%% @private The processes that a registry watches, with the names that it answers for.
%%
%% One monitor watches a process as long as it lives, also after its last name is gone: so no name needs a separate one.
-module(heal_watching).

-export([new/0, watch/3, unwatch/3, ended/2]).
-export_type([watched/0]).

%% Most processes have one name.
-opaque watched() :: #{pid() => none | heal:name() | #{heal:name() => has}}.

%% Watches nobody.
-spec new() -> watched().
new() -> #{}.

%% Watches the process of a name.
-spec watch(heal:name(), pid(), watched()) -> watched().
watch(Name, Pid, Watched) ->
    case Watched of
        #{Pid := Names} -> Watched#{Pid := added(Name, Names)};
        _ -> _ = monitor(process, Pid), Watched#{Pid => Name}
    end.

added(Name, none) -> Name;
added(Name, Names) when is_map(Names) -> Names#{Name => has};
added(Name, Other) -> #{Name => has, Other => has}.

%% A process has no such name any more.
-spec unwatch(heal:name(), pid(), watched()) -> watched().
unwatch(Name, Pid, Watched) ->
    case Watched of
        #{Pid := Names} -> Watched#{Pid := removed(Name, Names)};
        _ -> Watched
    end.

removed(Name, Name) -> none;
removed(Name, Names) when is_map(Names) -> maps:remove(Name, Names);
removed(_Name, Other) -> Other.

%% A process has ended. Returns its names, unless it isn't watched.
-spec ended(pid(), watched()) -> {[heal:name()], watched()} | none.
ended(Pid, Watched) ->
    case maps:take(Pid, Watched) of
        {none, Rest} -> {[], Rest};
        {Names, Rest} when is_map(Names) -> {maps:keys(Names), Rest};
        {Name, Rest} -> {[Name], Rest};
        error -> none
    end.
