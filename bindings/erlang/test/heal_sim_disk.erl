%% The disks of the simulator: each write takes a while, and some fail.
%%
%% A node that ends has what was written, and what is being written is lost. The registry reports each write to its part.
-module(heal_sim_disk).

-include("heal_sim.hrl").

-export([settings/2, started/2, kept/4, written/3, has/3]).

%% What a registry that starts reads from the disk of its node.
settings(_Name, #sim{has_disks = false}) ->
    #{};
settings(Name, #sim{nodes = Nodes}) ->
    #{Name := #node{disk = Disk}} = Nodes,
    Programs = maps:get(programs, Disk, #{}),
    #{programs => Programs, greatest => maps:get(greatest, Disk, 0), disk => {maps:keys(Programs), none}}.

%% A registry that starts has its programs written that the disk lacks.
started(Name, Sim = #sim{nodes = Nodes}) ->
    #{Name := #node{kept = Kept}} = Nodes,
    kept(programs, maps:get(programs, Kept, #{}), Name, Sim).

%% Numbers are written before the registry goes on.
kept(greatest, Number, Name, Sim = #sim{has_disks = true}) ->
    heal_sim_acts:update(Name, fun(Node = #node{disk = Disk}) -> Node#node{disk = Disk#{greatest => Number}} end, Sim);
kept(programs, Programs, Name, Sim = #sim{has_disks = true, nodes = Nodes}) when Programs =/= #{} ->
    #{Name := #node{life = Life}} = Nodes,
    heal_sim_trace:at(rand:uniform(200), {written, Name, Life, Programs}, Sim);
kept(_Key, _Value, _Name, Sim) ->
    Sim.

%% A write is over. Once all is quiet, disks are never full.
written(Name, Programs, Sim = #sim{nodes = Nodes}) ->
    #{Name := #node{disk = Disk}} = Nodes,
    Written = maps:get(programs, Disk, #{}),
    case rand:uniform(10) of
        1 when not Sim#sim.is_quiet ->
            Lacking = maps:keys(maps:without(maps:keys(Written), Programs)),
            heal_sim:event(Name, {disk, maps:keys(Written), Lacking, full}, Sim);
        _ ->
            Both = maps:merge(Written, Programs),
            Next = heal_sim_acts:update(Name, fun(Node) -> Node#node{disk = Disk#{programs => Both}} end, Sim),
            heal_sim:event(Name, {disk, maps:keys(Both), [], none}, Next)
    end.

%% Returns whether the disk of a node has a program, if the nodes have disks.
has(_Name, _Id, #sim{has_disks = false}) ->
    true;
has(Name, Id, #sim{nodes = Nodes}) ->
    #{Name := #node{disk = Disk}} = Nodes,
    is_map_key(Id, maps:get(programs, Disk, #{})).
