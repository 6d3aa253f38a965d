%% Records from a real Erlang, written as request lines of docs/REQUESTS.md: every kind of term that term_to_binary can write, with each
%% option that changes the bytes. lists/erlang compiles and starts this.
-module(records).
-export([print/0]).

print() ->
    {ok, Version} = file:read_file(filename:join([code:root_dir(), "releases", erlang:system_info(otp_release), "OTP_VERSION"])),
    io:format(standard_error, "OTP ~s", [Version]),
    lists:foreach(fun(Record) -> io:format("term ~s~n", [hex(Record)]) end, distinct(lists:flatmap(fun written/1, terms()))),
    halt(0).

%% Minor version 0 writes floats as text, 1 atoms in Latin-1 where that holds them, 2 all atoms in UTF-8. Terms beside the plain ones are
%% compressed too, which the Rust's decode_borrowed doesn't take.
written(Term) ->
    [term_to_binary(Term, [{minor_version, Minor}]) || Minor <- [0, 1, 2]] ++ [term_to_binary(Term), term_to_binary(Term, [deterministic])] ++
        [Compressed || Compressed = <<131, 80, _/binary>> <- [term_to_binary(Term, [{compressed, 9}])], byte_size(Compressed) < 300].

hex(Bytes) -> string:lowercase(binary:encode_hex(Bytes)).

distinct(Records) -> distinct(Records, #{}).
distinct([], _) -> [];
distinct([Record | More], Seen) when is_map_key(Record, Seen) -> distinct(More, Seen);
distinct([Record | More], Seen) -> [Record | distinct(More, Seen#{Record => true})].

terms() ->
    integers() ++ floats() ++ atoms() ++ tuples() ++ lists() ++ maps() ++ binaries() ++ identifiers() ++ funs() ++ bench().

%% On both sides of every width: tag 97 to 255, 98 to 2^31 - 1 (OTP writes what its small integers hold so), 110 to 255 digits, 111 above.
integers() ->
    Widths = [7, 8, 15, 16, 23, 24, 27, 28, 31, 32, 39, 40, 47, 48, 55, 56, 59, 60, 63, 64, 127, 128, 8 * 255, 8 * 256],
    [0, 1, -1, 255, 256] ++ lists:append([[N - 1, N, N + 1, 1 - N, -N, -N - 1] || Width <- Widths, N <- [1 bsl Width]]).

floats() ->
    [0.0, -0.0, 1.0, -1.0, 1.5, 0.1, 3.141592653589793, 1.0e100, -1.0e-100, 2.2250738585072014e-308, 5.0e-324, 1.7976931348623157e308].

%% A Latin-1 name, names of two to four bytes a letter, the empty one, and 255 letters of one to four bytes each: up to 1,020 bytes.
atoms() ->
    [ok, '', true, 'with space', 'A', binary_to_atom(<<0>>), binary_to_atom(<<"größe"/utf8>>), binary_to_atom(<<255/utf8>>),
     binary_to_atom(<<256/utf8>>), binary_to_atom(<<"電圧"/utf8>>), binary_to_atom(<<16#10ffff/utf8>>)] ++
        [list_to_atom(lists:duplicate(Length, Letter)) || Letter <- [$a, 16#e9, 16#20ac, 16#1f50b], Length <- [63, 64, 127, 128, 254, 255]].

tuples() ->
    [{}, {ok}, {ok, 1}, {{{}}}, list_to_tuple(lists:seq(1, 255)), list_to_tuple(lists:seq(1, 256)), list_to_tuple(lists:seq(1, 300)),
     nested(10, fun(Inner) -> {Inner} end), nested(62, fun(Inner) -> {Inner} end)].

lists() ->
    [[], [1], [255], [256], [a], [1, 2, 256], [[]], [[1], [a]], "text", lists:duplicate(1000, 7), [300 | "text"], [a | b], [1 | 2], [a, b | c],
     [1, 2 | {}], [[a | b] | c], lists:seq(0, 255), lists:seq(0, 256), [[a, "b"], {c, [d]}],
     nested(20, fun(Inner) -> [Inner] end), nested(20, fun(Inner) -> [a | Inner] end), nested(20, fun(Inner) -> [Inner | b] end)].

nested(0, _) -> deep;
nested(Levels, Around) -> Around(nested(Levels - 1, Around)).

%% Up to 32 keys a map is flat, with more it is a tree of hashes.
maps() ->
    Of = fun(Count) -> maps:from_list([{Key, Key * Key} || Key <- lists:seq(1, Count)]) end,
    [#{}, #{a => 1}, #{1 => a, 1.0 => b}, #{"key" => [value]}, #{<<"key">> => <<"value">>, {a, b} => #{}}, #{#{a => 1} => #{b => 2}},
     #{[] => nil, <<1:1>> => bits}, Of(31), Of(32), Of(33), Of(100), nested(5, fun(Inner) -> #{Inner => Inner} end)].

binaries() ->
    [<<>>, <<0>>, <<"bytes">>, binary:copy(<<255>>, 64), binary:copy(<<"x">>, 300), binary:copy(<<0>>, 1024)] ++
        [<<0:Bits>> || Bits <- lists:seq(1, 9)] ++ [<<5:3, 1:1>>, <<-1:7>>, <<1, 2, 3:5>>, <<0:1023>>].

%% This node has no name: nonode@nohost, creation 0. Identifiers of other nodes come in from outside and go out again.
identifiers() ->
    Node = <<119, 7, "n@other">>,
    [self(), list_to_pid("<0.0.0>"), list_to_pid("<0.32767.0>"), list_to_pid("<0.5.8191>"), make_ref(), hd(erlang:ports()),
     list_to_port("#Port<0.7>"), list_to_port("#Port<0.268435455>")] ++
        [binary_to_term(<<131, Identifier/binary>>) || Identifier <- [
            <<88, Node/binary, 1:32, 2:32, 3:32>>, <<88, Node/binary, -1:32, -1:32, -1:32>>, <<88, 119, 0, 0:32, 0:32, 0:32>>,
            <<90, 1:16, Node/binary, 3:32, 1:32>>, <<90, 3:16, Node/binary, 3:32, 1:32, 2:32, 3:32>>,
            <<90, 5:16, Node/binary, 3:32, 1:32, 2:32, 3:32, 4:32, 5:32>>,
            <<120, Node/binary, 7:64, 3:32>>, <<120, Node/binary, -1:64, 3:32>>, <<89, Node/binary, 7:32, 3:32>>]].

%% Exports; funs of this module, with no free variable, one, and several, a fun among them; and one that the shell would make.
funs() ->
    One = fun() -> ok end,
    Number = erlang:system_info(schedulers) * 0 + 7,
    Two = fun(X) -> X + Number end,
    Three = fun(X, Y) -> {X, Y, Number, Two, [Number | tail], #{Number => One}} end,
    {ok, Tokens, _} = erl_scan:string("fun(X) -> X + N end."),
    {ok, Exprs} = erl_parse:parse_exprs(Tokens),
    {value, Made, _} = erl_eval:exprs(Exprs, [{'N', 1}]),
    [fun lists:map/2, fun erlang:self/0, fun unknown:function/255, One, Two, Three, Made, {Two, [Three]}].

%% Records as a battery test jig keeps them.
bench() ->
    Cell = fun(N) -> #{cell => N, voltage => 3.6 + N / 1000, current => -0.25, raw => <<N:16, 0:16>>, ok => true} end,
    [{record, 1, <<"JIG-07">>, {{2026, 11, 15}, {9, 30, 0}}, [Cell(N) || N <- lists:seq(1, 4)], undefined},
     [{step, charge, 1, [{volts, 4.2}, {amps, 1.5}, {cut, 0.05}]}, {step, rest, 2, []}, {step, discharge, 3, [{volts, 2.5} | open]}],
     #{id => 123456789012, channel => 'kanal_größe', cells => {1.0, 2.0, 3.0, 4.0}, log => "pass", owner => list_to_pid("<0.33.0>")},
     {'$gen_call', {self(), [alias | make_ref()]}, {measure, 3, [voltage, temperature]}},
     {error, {timeout, {gen_server, call, [jig, read, 5000]}}}].
