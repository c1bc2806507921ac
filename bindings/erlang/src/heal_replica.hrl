%% A registration as every node of its part has it. `home' is the life that answers for it: that of the process's node, or of the
%% node that registered it if the process's node runs no registry. Rows share their homes, and most rows what
%% they have alike: heal_row.
-record(row, {
    serial :: 0..16#ffffffff,
    stamp :: non_neg_integer(),
    alike :: heal_row:alike(),
    pid :: pid(),
    %% The name as its caller wrote it.
    term :: term(),
    home :: heal_replica:life()
}).

%% A part's names and programs, and the greatest number of an exchange that it finished.
-record(half, {
    names = #{} :: #{heal:name() => #row{}},
    programs = #{} :: #{Id :: binary() => Code :: binary()},
    latest = 0 :: non_neg_integer()
}).

%% How many programs a half has at most.
-define(MAX_PROGRAMS, 256).
