#!/usr/bin/env escript
%% The time that file:consult takes for a launch file: the median of many runs, in microseconds.
%%
%%   consult.escript FILE
-mode(compile).

main([Path]) ->
    Runs = 1000,
    {ok, [_]} = file:consult(Path),
    Times = lists:sort([element(1, timer:tc(file, consult, [Path])) || _ <- lists:seq(1, Runs)]),
    io:format("file:consult, OTP ~s, ~b bytes: median of ~b runs ~b us~n",
              [erlang:system_info(otp_release), filelib:file_size(Path), Runs, lists:nth(Runs div 2, Times)]).
