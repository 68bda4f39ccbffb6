#!/usr/bin/env escript
%% -*- coding: utf-8 -*-
%% Holds a reader of launch files to Erlang's own file:consult.
%%
%%   consult.escript compare LIST PRINTED KEPT    what a program printed for a list of launches is what follows from file:consult; a launch that
%%                                                differs is copied to the folder KEPT and to the list there
%%   consult.escript differences FOLDER           writes the texts of the differences below, with a list of them
%%   consult.escript held FOLDER PRINTED          what a program printed for that list, and what file:consult gives, are as stated
%%
%% A line of a list is `N HIDDEN START BOOK FILE`; for each, a program prints `ok` with `NAME=MEMBERS` for every s_group of the table, or
%% `error REASON PLACE`. A text is a launch file exactly when file:consult gives one term, the term is a launch file by `groups`, which is written from
%% document 02, and the text has no token that 02 leaves out, by `plain_tokens`. Bytes that are no UTF-8 are read as Latin-1.
-mode(compile).

main(["compare", List, Printed, Kept]) ->
    ended(compare(List, Printed, Kept));
main(["differences", Folder]) ->
    write_differences(Folder);
main(["held", Folder, Printed]) ->
    ended(held(Folder, Printed));
main(_) ->
    io:format(standard_error, "usage: consult.escript compare LIST PRINTED KEPT | differences FOLDER | held FOLDER PRINTED~n", []),
    halt(2).

%% Prints what is wrong and ends with a status.
ended([]) -> ok;
ended(Wrong) ->
    [io:format("~ts~n", [Line]) || Line <- lists:sublist(Wrong, 20)],
    halt(1).

%% ---- Launches of a list ----

compare(List, Printed, Kept) ->
    Pairs = [{launch(Line, List), Answer} || {Line, Answer} <- zipped(lines(List), lines(Printed))],
    Judged = [{Launch, Answer, expected(Launch)} || {Launch, Answer} <- Pairs],
    Count = fun({_, _, {Verdict, _}}, Seen) -> maps:update_with(Verdict, fun(K) -> K + 1 end, 1, Seen) end,
    Counts = lists:foldl(Count, #{}, Judged),
    Refused = maps:get({error, 18}, Counts, 0),
    Reasons = [io_lib:format("~b for reason ~b", [K, Reason]) || {{error, Reason}, K} <- lists:sort(maps:to_list(Counts)), Reason =/= 18],
    io:format("erlang: OTP ~s, ~b texts: ~b launch files (~ts), ~b not~n",
              [erlang:system_info(otp_release), length(Judged), length(Judged) - Refused,
               lists:join(", ", [io_lib:format("~b launched", [maps:get(ok, Counts, 0)]) | Reasons]), Refused]),
    Different = [Wrong || {Launch, Answer, Expected} = Wrong <- Judged, not agrees(Launch, Answer, Expected)],
    [keep(Launch, Kept) || {Launch, _, _} <- lists:sublist(Different, 20)],
    [wrong(Launch, Answer, Expected) || {Launch, Answer, Expected} <- Different].

%% The launch of a line, with its texts.
launch(Line, List) ->
    [N, Hidden, Start, Book, File] = string:split(Line, " ", all),
    Path = filename:join(filename:dirname(List), File),
    {ok, Text} = file:read_file(Path),
    {ok, Names} = file:read_file(filename:join(filename:dirname(List), Book)),
    #{path => Path, n => list_to_integer(N), hidden => Hidden, start => list_to_integer(Start), book => Names, text => Text}.

%% Copies a launch to a folder, and its line to the list there.
keep(#{path := Path, n := N, hidden := Hidden, start := Start, book := Names, text := Text}, Kept) ->
    Name = filename:basename(filename:dirname(Path)) ++ "-" ++ filename:basename(Path, ".config"),
    ok = filelib:ensure_dir(filename:join(Kept, "list")),
    ok = file:write_file(filename:join(Kept, Name ++ ".book"), Names),
    ok = file:write_file(filename:join(Kept, Name ++ ".config"), Text),
    Line = io_lib:format("~b ~ts ~b ~ts.book ~ts.config~n", [N, Hidden, Start, Name, Name]),
    ok = file:write_file(filename:join(Kept, "list"), Line, [append]).

%% Of a text that is no launch file the place is not judged here, but it lies in the text.
agrees(#{text := Text}, Answer, {{error, 18}, _}) ->
    case string:split(Answer, " ", all) of
        ["error", "18", Place] -> list_to_integer(Place) =< byte_size(Text);
        _ -> false
    end;
agrees(_, Answer, {_, Line}) -> Answer =:= Line.

wrong(#{path := Path, text := Text}, Answer, {_, Line}) ->
    io_lib:format("~ts: printed '~ts', and by file:consult it is '~ts': ~0p", [Path, Answer, Line, Text]).

%% What a program has to print for a launch.
expected(#{path := Path, n := N, start := Start, book := Names, text := Text}) ->
    {Nodes, GroupAtoms} = lists:split(N, lists:droplast(binary:split(Names, <<"\n">>, [global]))),
    case launch_file(Path, Text) of
        none -> refused(18);
        {groups, Groups} ->
            case kept(Groups, lists:nth(Start + 1, Nodes)) of
                refused -> refused(19);
                Kept -> numbered(Kept, numbers(Nodes, 0), numbers(GroupAtoms, 1))
            end
    end.

refused(Reason) -> {{error, Reason}, lists:flatten(io_lib:format("error ~b 0", [Reason]))}.

numbers(Atoms, First) -> maps:from_list(lists:zip(Atoms, lists:seq(First, First + length(Atoms) - 1))).

%% The groups that are kept: of equal ones of one atom the first, of unequal ones none. Refused where the starting node is in any of these.
kept(Groups, Start) ->
    Names = distinct([Name || {Name, _} <- Groups]),
    Sets = [{Name, lists:usort([lists:usort(Nodes) || {Other, Nodes} <- Groups, Other =:= Name])} || Name <- Names],
    case [Name || {Name, [_, _ | _] = Several} <- Sets, lists:member(Start, lists:append(Several))] of
        [] -> [{Name, Set} || {Name, [Set]} <- Sets];
        _ -> refused
    end.

%% Each once, at its first place.
distinct([]) -> [];
distinct([First | Rest]) -> [First | distinct([Other || Other <- Rest, Other =/= First])].

numbered(Kept, Nodes, Groups) ->
    Known = fun({Name, Set}) -> maps:is_key(Name, Groups) andalso lists:all(fun(Node) -> maps:is_key(Node, Nodes) end, Set) end,
    case lists:all(Known, Kept) of
        false -> refused(20);
        true when length(Kept) > 32 -> refused(16);
        true ->
            Members = fun(Set) -> lists:sum([1 bsl maps:get(Node, Nodes) || Node <- Set]) end,
            Lines = lists:sort([{maps:get(Name, Groups), Members(Set)} || {Name, Set} <- Kept]),
            {ok, lists:flatten(["ok" | [io_lib:format(" ~b=~b", [Name, Set]) || {Name, Set} <- Lines]])}
    end.

%% ---- One text ----

%% The groups of a launch file, atoms as bytes, or none.
launch_file(Path, Text) ->
    case consulted(Path, Text) of
        {ok, [Term]} ->
            case plain_tokens(Text) andalso groups(Term) of
                false -> none;
                none -> none;
                Groups ->
                    {groups, [{bytes(Name, Text), [bytes(Node, Text) || Node <- Nodes]} || {Name, Nodes} <- Groups]}
            end;
        _ -> none
    end.

%% What file:consult gives: of the file itself, or of its bytes as Latin-1 characters where they are no UTF-8.
consulted(Path, Text) ->
    case is_utf8(Text) of
        true -> file:consult(Path);
        false ->
            Copy = filename:join(os:getenv("TMPDIR", "/tmp"), "consult." ++ os:getpid() ++ ".config"),
            ok = file:write_file(Copy, unicode:characters_to_binary(Text, latin1, utf8)),
            Consulted = file:consult(Copy),
            ok = file:delete(Copy),
            Consulted
    end.

is_utf8(Text) -> is_list(unicode:characters_to_list(Text, utf8)).

characters(Text) ->
    case is_utf8(Text) of
        true -> unicode:characters_to_list(Text, utf8);
        false -> binary_to_list(Text)
    end.

bytes(Atom, Text) ->
    case is_utf8(Text) of
        true -> atom_to_binary(Atom, utf8);
        false -> atom_to_binary(Atom, latin1)
    end.

%% Whether the text has the tokens of 02 alone: brackets, commas, full stops, numbers of digits, atoms that are plain or quoted without escapes, and
%% white space of the bytes 0 to 32.
plain_tokens(Text) ->
    case erl_scan:string(characters(Text), {1, 1}, [return, text]) of
        {ok, Tokens, _} -> lists:all(fun plain_token/1, Tokens);
        _ -> false
    end.

plain_token(Token) ->
    Text = erl_scan:text(Token),
    case erl_scan:category(Token) of
        '[' -> true;
        ']' -> true;
        '{' -> true;
        '}' -> true;
        ',' -> true;
        dot -> white(tl(Text));
        white_space -> white(Text);
        integer -> lists:all(fun(C) -> C >= $0 andalso C =< $9 end, Text);
        atom -> plain_atom(Text);
        _ -> false
    end.

white(Text) -> lists:all(fun(C) -> C =< 32 end, Text).

plain_atom([$' | _] = Text) -> not lists:member($\\, Text);
plain_atom(Text) -> lists:all(fun(C) -> C < 128 end, Text).

%% The groups of a term that is a launch file: a list of pairs with one `kernel`, in it a list of pairs with one `s_groups`, in it the groups.
groups(File) ->
    case one(kernel, File) of
        none -> none;
        Kernel ->
            case one(s_groups, Kernel) of
                none -> none;
                Groups ->
                    case is_proper(Groups) andalso lists:all(fun is_group/1, Groups) of
                        true -> [{Name, Nodes} || {Name, normal, Nodes} <- Groups];
                        false -> none
                    end
            end
    end.

is_group({Name, normal, [_ | _] = Nodes}) -> is_atom(Name) andalso is_proper(Nodes) andalso lists:all(fun is_atom/1, Nodes);
is_group(_) -> false.

%% The value of the one pair of this atom in a list of pairs whose other values may be skipped, or none.
one(Atom, Pairs) ->
    Skipped = fun({Name, Value}) -> is_atom(Name) andalso (Name =:= Atom orelse is_value(Value, 16)); (_) -> false end,
    case is_proper(Pairs) andalso lists:all(Skipped, Pairs) andalso [Value || {Name, Value} <- Pairs, Name =:= Atom] of
        [Value] -> Value;
        _ -> none
    end.

is_value(Value, _) when is_atom(Value) -> true;
is_value(Value, _) when is_integer(Value) -> Value >= 0;
is_value(Value, Depth) when is_tuple(Value), Depth > 0 -> is_value_each(tuple_to_list(Value), Depth - 1);
is_value(Value, Depth) when is_list(Value), Depth > 0 -> is_proper(Value) andalso is_value_each(Value, Depth - 1);
is_value(_, _) -> false.

is_value_each(Values, Depth) -> lists:all(fun(Value) -> is_value(Value, Depth) end, Values).

is_proper(List) -> is_integer(catch length(List)).

%% ---- Differences that 02 wants ----

%% A text with this value in a skipped pair.
valued(Value) -> ["[{a,", Value, "},{kernel,[{s_groups,[]}]}]."].

%% A text whose s_groups are this.
grouped(Groups) -> ["[{kernel,[{s_groups,", Groups, "}]}]."].

kernel() -> "{kernel,[{s_groups,[]}]}".

%% Other writings of terms that are launch files: file:consult takes them, a launch file has no such token. The number is the place.
writings() ->
    [{"a comment before", ["% c\n[", kernel(), "]."], 0},
     {"a comment between", ["[%\n", kernel(), "]."], 1},
     {"a comment behind the full stop", ["[", kernel(), "].%"], 27},
     {"a comment in the next line", ["[", kernel(), "].\n% c\n"], 28},
     {"an escape", valued("'\\x61'"), 5},
     {"an escape that is its letter", valued("'a\\b'"), 6},
     {"an escaped quote", valued("'\\''"), 5},
     {"a string", valued("\"ab\""), 4},
     {"an empty string", valued("\"\""), 4},
     {"a string of two", valued("\"a\" \"b\""), 4},
     {"a character", valued("$c"), 4},
     {"an underscore in a number", valued("1_000"), 5},
     {"a number with a base", valued("16#ff"), 6},
     {"a sign", valued("+1"), 4},
     {"a list by its tail", valued("[1|[2]]"), 6},
     {"parentheses", valued("(1)"), 4},
     {"a plain atom of Latin-1", valued(<<"\x{e9}"/utf8>>), 4},
     {"a plain atom with a letter of Latin-1 in it", valued(<<"a\x{e9}"/utf8>>), 5},
     {"the white space 160", valued(<<"\x{a0}1"/utf8>>), 4},
     {"the white space 128", valued(<<"1\x{80}"/utf8>>), 5},
     {"the white space 160 behind the full stop", ["[", kernel(), "].", <<"\x{a0}"/utf8>>], 27},
     {"a comment with an encoding", ["%% coding: latin-1\n[", kernel(), "]."], 0}].

%% Terms that are no launch files: file:consult takes the text.
terms() ->
    [{"a float", valued("1.5"), 5},
     {"a negative number", valued("-1"), 4},
     {"a binary", valued("<<1>>"), 4},
     {"a map", valued("#{}"), 4},
     {"a fun", valued("fun a:b/1"), 7},
     {"an improper list", valued("[1|2]"), 6},
     {"no term", "", 0},
     {"white space", " \n", 2},
     {"two terms", ["[", kernel(), "]. [", kernel(), "]."], 28},
     {"an atom", "kernel.", 0},
     {"a tuple", [kernel(), "."], 0},
     {"an empty list", "[].", 1},
     {"no kernel", "[{a,1}].", 6},
     {"two kernels", ["[", kernel(), ",", kernel(), "]."], 33},
     {"two kernels, one in quotes", ["[", kernel(), ",{'kernel',1}]."], 34},
     {"a kernel that is no list", "[{kernel,a}].", 9},
     {"no s_groups", "[{kernel,[]}].", 10},
     {"no s_groups but another", "[{kernel,[{a,1}]}].", 15},
     {"two s_groups", "[{kernel,[{s_groups,[]},{s_groups,[]}]}].", 33},
     {"s_groups that are no list", grouped("a"), 20},
     {"s_groups of an atom", grouped("[a]"), 21},
     {"a hidden group", grouped("[{a,hidden,[b]}]"), 24},
     {"a group without a type", grouped("[{a,[b]}]"), 24},
     {"a group without nodes", grouped("[{a,normal,[]}]"), 32},
     {"a group of a number", grouped("[{a,normal,[1]}]"), 32},
     {"a group that is a number", grouped("[{1,normal,[b]}]"), 22},
     {"a group of four", grouped("[{a,normal,[b],c}]"), 34},
     {"a key that is no atom", ["[{1,2},", kernel(), "]."], 2},
     {"a pair of one", ["[{a},", kernel(), "]."], 3},
     {"a pair of three", ["[{a,1,2},", kernel(), "]."], 5},
     {"an element that is no pair", ["[a,", kernel(), "]."], 1},
     {"seventeen brackets", valued([lists:duplicate(17, $[), lists:duplicate(17, $])]), 20},
     {"seventeen of the other kind", valued([lists:duplicate(17, ${), lists:duplicate(17, $})]), 20}].

%% Launch files that file:consult refuses.
files() ->
    [{"an atom of 256 characters", valued(["'", lists:duplicate(256, $a), "'"])},
     {"a plain atom of 256 characters", valued(lists:duplicate(256, $a))},
     {"a byte of Latin-1 in quotes", valued(["'", 16#e9, "'"])},
     {"bytes that are no UTF-8 in quotes", valued(["'", 255, 128, 192, "'"])},
     {"half a character in quotes", valued(["'", 16#c3, "'"])}].

%% Launch files that both take, though one might think otherwise.
both() ->
    [{"every white space", [[[C] || C <- lists:seq(0, 32)], "[", kernel(), "].", [[C] || C <- lists:seq(0, 32)]]},
     {"no white space behind the full stop", ["[", kernel(), "]."]},
     {"the empty atom", valued("''")},
     {"a newline in an atom", valued("'a\nb'")},
     {"control characters in an atom", valued(["'", lists:seq(1, 31), 127, "'"])},
     {"the byte 0 in an atom", valued(["'", 0, "'"])},
     {"marks in an atom", valued("'%\"$#[]{},.|'")},
     {"characters of UTF-8 in an atom", valued(<<"'\x{e9}\x{20ac}\x{1f600}'"/utf8>>)},
     {"an atom of 255 characters", valued(["'", lists:duplicate(255, $a), "'"])},
     {"zeros before a number", valued("007")},
     {"a long number", valued(lists:duplicate(400, $9))},
     {"words that other versions reserve", valued("[maybe,else,query]")},
     {"words that are values", valued("[true,false,undefined,nil]")},
     {"reserved words in quotes", valued(["[", lists:join(",", [["'", Word, "'"] || Word <- reserved()]), "]"])},
     {"reserved words with more", valued(["[", lists:join(",", [[Word, "@"] || Word <- reserved()]), "]"])},
     {"sixteen brackets", valued([lists:duplicate(16, $[), lists:duplicate(16, $])])},
     {"quoted words", "[{'kernel',[{'s_groups',[]}]}]."}].

%% Texts that both refuse. The number is the place.
neither() ->
    [{Word ++ " plain", valued(Word), 4 + length(Word)} || Word <- reserved()] ++
    [{"no full stop", ["[", kernel(), "]"], 26},
     {"a full stop and a letter", ["[", kernel(), "].a"], 27},
     {"two full stops", ["[", kernel(), "].."], 27},
     {"a second full stop", ["[", kernel(), "]. ."], 28},
     {"a variable", valued("A"), 4},
     {"a variable that is none", valued("_"), 4},
     {"an atom that starts with @", valued("@a"), 4},
     {"atoms side by side", valued("a b"), 6},
     {"quoted atoms side by side", valued("'a''b'"), 7},
     {"numbers side by side", valued("1 2"), 6},
     {"a number and a letter", valued("1a"), 5},
     {"a comma too many", valued("[1,]"), 7},
     {"a comma too soon", valued("[,1]"), 5},
     {"a comma behind the last pair", ["[", kernel(), ",]."], 26},
     {"brackets that don't fit", valued("[1}"), 6},
     {"a quote without another", valued("'a"), 34},
     {"a full stop in a list", valued("[1.]"), 6},
     {"the byte 127", valued([127, "1"]), 4},
     {"the white space 160 as one byte", valued([160, "1"]), 4},
     {"a plain atom of one byte of Latin-1", valued([16#e9]), 4},
     {"a byte-order mark", [<<"\x{feff}"/utf8>>, "[", kernel(), "]."], 0},
     {"listing 2 of 000 as it stands",
      "[[kernel, [{s_groups,\n  [{group1, normal, ['node1@glasgow.ac.uk', 'node2@glasgow.ac.uk']}]]]]].\n", 1},
     {"listing 3 of 000 as it stands",
      "[[kernel, [{s_groups,\n  [{group1, normal, ['node3@glasgow.ac.uk', 'node4@glasgow.ac.uk', ]}]]]]].\n", 1}].

reserved() ->
    ["after", "and", "andalso", "band", "begin", "bnot", "bor", "bsl", "bsr", "bxor", "case", "catch", "cond", "div", "end", "fun", "if", "let", "not",
     "of", "or", "orelse", "receive", "rem", "try", "when", "xor"].

%% Every text with its name, whether file:consult gives one term of it, whether that is a launch file, and what a program has to print.
all() ->
    [{Name, Text, launch_file, error_18(Place)} || {Name, Text, Place} <- writings()] ++
    [{Name, Text, term, error_18(Place)} || {Name, Text, Place} <- terms()] ++
    [{Name, Text, no_term, "ok"} || {Name, Text} <- files()] ++
    [{Name, Text, launch_file, "ok"} || {Name, Text} <- both()] ++
    [{Name, Text, no_term, error_18(Place)} || {Name, Text, Place} <- neither()].

error_18(Place) -> "error 18 " ++ integer_to_list(Place).

write_differences(Folder) ->
    ok = filelib:ensure_dir(filename:join(Folder, "list")),
    ok = file:write_file(filename:join(Folder, "book"), "node1\n"),
    Numbered = lists:zip(lists:seq(1, length(all())), all()),
    [ok = file:write_file(text_file(Folder, K), Text) || {K, {_, Text, _, _}} <- Numbered],
    ok = file:write_file(filename:join(Folder, "list"), [io_lib:format("1 0 0 book ~b.config~n", [K]) || {K, _} <- Numbered]).

text_file(Folder, K) -> filename:join(Folder, integer_to_list(K) ++ ".config").

held(Folder, Printed) ->
    io:format("erlang: ~b other writings, ~b terms that are no launch files, ~b launch files that file:consult refuses, ~b that both take, ~b that both refuse~n",
              [length(writings()), length(terms()), length(files()), length(both()), length(neither())]),
    Numbered = lists:zip(lists:seq(1, length(all())), all()),
    Told = [{Case, by_erlang(text_file(Folder, K)), Answer} || {{K, Case}, Answer} <- zipped(Numbered, lines(Printed))],
    [io_lib:format("~ts: file:consult makes it ~p, a program prints '~ts', and not ~p and '~ts'", [Name, Erlang, Answer, Stated, Line])
     || {{Name, _, Stated, Line}, Erlang, Answer} <- Told, Erlang =/= Stated orelse Answer =/= Line]
    ++ ["the reserved words are not Erlang's" || not lists:all(fun(Word) -> erl_scan:reserved_word(list_to_atom(Word)) end, reserved())].

%% What file:consult makes of a file, whatever its tokens are.
by_erlang(Path) ->
    case file:consult(Path) of
        {ok, [Term]} ->
            case groups(Term) of
                none -> term;
                _ -> launch_file
            end;
        {ok, _} -> term;
        {error, _} -> no_term
    end.

%% ---- Helpers ----

lines(Path) ->
    {ok, Text} = file:read_file(Path),
    [binary_to_list(Line) || Line <- lists:droplast(binary:split(Text, <<"\n">>, [global]))].

zipped(Ones, Others) when length(Ones) =:= length(Others) -> lists:zip(Ones, Others);
zipped(Ones, Others) -> ended([io_lib:format("~b launches, and ~b lines printed", [length(Ones), length(Others)])]).
