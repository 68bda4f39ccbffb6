#!/usr/bin/env escript
%% -*- coding: utf-8 -*-
%% Times file:consult on a launch file of 32 groups of 16 nodes, and on the largest of 32 groups of 64: prints the median, the least and the greatest
%% of many runs in microseconds.
%%
%%   consult_time.escript [RUNS]
-mode(compile).

main([]) -> main(["1000"]);
main([Runs]) ->
    [timed(Nodes, list_to_integer(Runs)) || Nodes <- [16, 64]].

timed(Nodes, Runs) ->
    Path = filename:join(os:getenv("TMPDIR", "/tmp"), "consult_time." ++ os:getpid() ++ ".config"),
    ok = file:write_file(Path, text(Nodes)),
    {ok, [_]} = file:consult(Path),
    Times = lists:sort([element(1, timer:tc(file, consult, [Path])) || _ <- lists:seq(1, Runs)]),
    io:format("file:consult, OTP ~s, 32 groups of ~b nodes, ~b bytes: median ~b us, least ~b, greatest ~b, of ~b runs~n",
              [erlang:system_info(otp_release), Nodes, filelib:file_size(Path), lists:nth((Runs + 1) div 2, Times), hd(Times), lists:last(Times), Runs]),
    ok = file:delete(Path).

%% A launch file of 32 groups of so many of 64 nodes each, written as in 000.
text(Nodes) ->
    Groups = [group(Group, [(Group * 7 + Node) rem 64 || Node <- lists:seq(1, Nodes)]) || Group <- lists:seq(1, 32)],
    ["[{kernel, [{s_groups,\n  [", lists:join(",\n  ", Groups), "]}]}].\n"].

group(Group, Nodes) ->
    Atoms = [io_lib:format("'node~b@glasgow.ac.uk'", [Node + 1]) || Node <- Nodes],
    io_lib:format("{group~b, normal, [~ts]}", [Group, lists:join(", ", Atoms)]).
