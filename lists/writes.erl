%% Rows for the writer, as request lines of docs/REQUESTS.md, and a real Erlang as the judge of what is answered. lists/writes compiles and starts
%% this: ask() prints the requests; judge() makes the same rows again, by the same seed, and judges the answers in the file that ANSWERS names.
%%
%% A row is made of a tree, which says what the row means: {integer, N}, {double, Bits}, {atom, Name}, {binary, Bytes}, {tuple, Trees},
%% {list, Trees}, {map, Pairs} and nil. written() has a tree's bytes by document 02's rules, meant() its Erlang term; neither looks at the row.
-module(writes).
-export([ask/0, judge/0]).

-define(SEED, {2026, 11, 16}).
%% What numbers of 64 bits are below.
-define(WORD, 16#10000000000000000).

ask() ->
    io:put_chars([[request(Row), $\n] || Row <- rows()]),
    halt(0).

%% A row: what it is told as, the bytes lent, its numbers, its texts, and what it must be answered: {done, Tree}, {room, Tree} or items.
rows() ->
    _ = rand:seed(exsss, ?SEED),
    distinct(leaves() ++ wide() ++ deep() ++ nested() ++ unread() ++ short() ++ damaged() ++ long()).

distinct(Rows) -> distinct(Rows, #{}).
distinct([], _) -> [];
distinct([Row | More], Seen) ->
    Line = iolist_to_binary(request(Row)),
    case is_map_key(Line, Seen) of
        true -> distinct(More, Seen);
        false -> [Row | distinct(More, Seen#{Line => true})]
    end.

request({_, Room, Numbers, Texts, _}) -> io_lib:format("write ~b ~s ~s", [Room, joined(Numbers), spelt(Texts)]).

joined([]) -> "-";
joined(Numbers) -> lists:join($,, [integer_to_list(N) || N <- Numbers]).

spelt(<<>>) -> "-";
spelt(Bytes) -> hex(Bytes).

hex(Bytes) -> string:lowercase(binary:encode_hex(Bytes)).

%% All of the line that a row must be answered. No byte behind the term is written, and of a refused one none at all.
answer({done, Tree}, Room) ->
    Bytes = written(Tree),
    io_lib:format("answer=0 written=~b extra=0 bytes=~s kept=~b", [byte_size(Bytes), hex(Bytes), Room - byte_size(Bytes)]);
answer({room, Tree}, Room) -> io_lib:format("answer=9 written=0 extra=~b bytes= kept=~b", [byte_size(written(Tree)), Room]);
answer(items, Room) -> io_lib:format("answer=17 written=0 extra=0 bytes= kept=~b", [Room]).

%% P1's rules.

written(Tree) -> <<131, (bytes(Tree))/binary>>.

bytes({integer, N}) when N >= 0, N =< 255 -> <<97, N>>;
bytes({integer, N}) when N >= -16#80000000, N =< 16#7fffffff -> <<98, N:32>>;
bytes({integer, N}) ->
    Digits = binary:encode_unsigned(abs(N), little),
    <<110, (byte_size(Digits)), (if N < 0 -> 1; true -> 0 end), Digits/binary>>;
bytes({double, Bits}) -> <<70, Bits:64>>;
bytes({atom, Name}) when byte_size(Name) =< 255 -> <<119, (byte_size(Name)), Name/binary>>;
bytes({atom, Name}) -> <<118, (byte_size(Name)):16, Name/binary>>;
bytes({binary, Bytes}) -> <<109, (byte_size(Bytes)):32, Bytes/binary>>;
bytes({tuple, Trees}) when length(Trees) =< 255 -> <<104, (length(Trees)), (all_bytes(Trees))/binary>>;
bytes({tuple, Trees}) -> <<105, (length(Trees)):32, (all_bytes(Trees))/binary>>;
bytes({list, Trees}) -> <<108, (length(Trees)):32, (all_bytes(Trees))/binary, 106>>;
bytes({map, Pairs} = Map) -> <<116, (length(Pairs)):32, (all_bytes(children(Map)))/binary>>;
bytes(nil) -> <<106>>.

all_bytes(Trees) -> << <<(bytes(Tree))/binary>> || Tree <- Trees >>.

children({tuple, Trees}) -> Trees;
children({list, Trees}) -> Trees;
children({map, Pairs}) -> lists:append([[Key, Value] || {Key, Value} <- Pairs]);
children(_) -> [].

%% A tree and all trees in it, each before its children.
every(Tree) -> [Tree | lists:flatmap(fun every/1, children(Tree))].

%% The Erlang term that a tree means.

meant({integer, N}) -> N;
meant({double, Bits}) -> <<Double/float>> = <<Bits:64>>, Double;
meant({atom, Name}) -> binary_to_atom(Name);
meant({binary, Bytes}) -> Bytes;
meant({tuple, Trees}) -> list_to_tuple([meant(Tree) || Tree <- Trees]);
meant({list, Trees}) -> [meant(Tree) || Tree <- Trees];
meant({map, Pairs}) -> maps:from_list([{meant(Key), meant(Value)} || {Key, Value} <- Pairs]);
meant(nil) -> [].

%% Erlang has no term for a double that isn't finite, a name of over 255 characters, and a map with the same key twice.
is_erlang({double, Bits}) -> Bits band 16#7ff0000000000000 =/= 16#7ff0000000000000;
is_erlang({atom, Name}) -> length(unicode:characters_to_list(Name)) =< 255;
is_erlang({map, Pairs} = Map) -> lists:all(fun is_erlang/1, children(Map)) andalso length(different(Pairs)) =:= length(Pairs);
is_erlang(Tree) -> lists:all(fun is_erlang/1, children(Tree)).

%% The pairs whose keys mean what no key before them means.
different(Pairs) -> different(Pairs, #{}).
different([], _) -> [];
different([{Key, _} = Pair | More], Seen) ->
    case is_map_key(meant(Key), Seen) of
        true -> different(More, Seen);
        false -> [Pair | different(More, Seen#{meant(Key) => true})]
    end.

%% term_to_binary has tag 106 for an empty list and 107 for one of bytes, and an order of its own for a map, which of up to 32 keys is that of
%% maps:to_list. A tree without such lists and with its maps so ordered must have the bytes that term_to_binary writes.
is_plain({list, []}) -> false;
is_plain({list, Trees}) -> not lists:all(fun is_byte/1, Trees) andalso lists:all(fun is_plain/1, Trees);
is_plain({map, Pairs} = Map) -> length(Pairs) =< 32 andalso lists:all(fun is_plain/1, children(Map));
is_plain(Tree) -> lists:all(fun is_plain/1, children(Tree)).

is_byte({integer, N}) -> N >= 0 andalso N =< 255;
is_byte(_) -> false.

ordered({tuple, Trees}) -> {tuple, [ordered(Tree) || Tree <- Trees]};
ordered({list, Trees}) -> {list, [ordered(Tree) || Tree <- Trees]};
ordered({map, Pairs} = Map) ->
    Ordered = maps:from_list([{meant(Key), {ordered(Key), ordered(Value)}} || {Key, Value} <- Pairs]),
    {map, [map_get(Key, Ordered) || {Key, _} <- maps:to_list(meant(Map))]};
ordered(Tree) -> Tree.

%% Rows from trees.

%% Its items, three numbers to each, and texts with its names and binaries in them.
row(Tree) ->
    Trees = every(Tree),
    {Texts, Places} = texts([Bytes || {Kind, Bytes} <- Trees, Kind =:= atom orelse Kind =:= binary]),
    {Items, []} = lists:mapfoldl(fun item/2, Places, Trees),
    {Items, Texts}.

item({integer, N}, Places) -> {[1, N band (?WORD - 1), unused()], Places};
item({double, Bits}, Places) -> {[2, Bits, unused()], Places};
item({atom, Name}, [Place | Places]) -> {[3, Place, byte_size(Name)], Places};
item({binary, Bytes}, [Place | Places]) -> {[4, Place, byte_size(Bytes)], Places};
item({tuple, Trees}, Places) -> {[5, length(Trees), unused()], Places};
item({list, Trees}, Places) -> {[6, length(Trees), unused()], Places};
item({map, Pairs}, Places) -> {[7, length(Pairs), unused()], Places};
item(nil, Places) -> {[8, unused(), unused()], Places}.

%% What stands in a field that an item doesn't use.
unused() ->
    case rand:uniform(8) of
        1 -> rand:uniform(?WORD) - 1;
        2 -> one_of([1, 3, 255, 256, 65536, 16#80000000, 1 bsl 63, ?WORD - 1]);
        _ -> 0
    end.

%% The strings in any order, apart or overlapping, other bytes between and behind them; and the strings' places. One of no bytes lies
%% anywhere, at the end too.
texts(Strings) ->
    Numbered = lists:zip(lists:seq(1, length(Strings)), Strings),
    {Empty, Full} = lists:partition(fun({_, Bytes}) -> Bytes =:= <<>> end, Numbered),
    {Laid, Texts} = lists:mapfoldl(fun({I, Bytes}, Before) ->
        {Place, After} = lay(Bytes, Before, rand:uniform(4)),
        {{I, Place}, After}
    end, <<>>, shuffled(Full)),
    All = <<Texts/binary, (any_bytes(one_of([0, 0, 1, 20])))/binary>>,
    Anywhere = [{I, one_of([0, byte_size(All), rand:uniform(byte_size(All) + 1) - 1])} || {I, _} <- Empty],
    {All, [Place || {_, Place} <- lists:sort(Laid ++ Anywhere)]}.

lay(Bytes, Texts, 1) ->
    Gap = any_bytes(one_of([0, 1, 3])),
    {byte_size(Texts) + byte_size(Gap), <<Texts/binary, Gap/binary, Bytes/binary>>};
lay(Bytes, Texts, _) ->
    case binary:match(Texts, Bytes) of
        {Place, _} -> {Place, Texts};
        nomatch ->
            Shared = shared(Texts, Bytes, min(byte_size(Texts), byte_size(Bytes))),
            <<_:Shared/binary, New/binary>> = Bytes,
            {byte_size(Texts) - Shared, <<Texts/binary, New/binary>>}
    end.

%% How many bytes, at most so many, end the one and begin the other.
shared(_, _, 0) -> 0;
shared(Texts, Bytes, N) ->
    case binary:part(Texts, byte_size(Texts), -N) =:= binary:part(Bytes, 0, N) of
        true -> N;
        false -> shared(Texts, Bytes, N - 1)
    end.

%% Rows that must be written, with room for their bytes and none over, or some.
good(Told, Trees) ->
    [begin
        {Items, Texts} = row(Tree),
        Room = byte_size(written(Tree)) + one_of([0, 0, 1, rand:uniform(20), rand:uniform(300)]),
        {Told, Room, lists:append(Items), Texts, {done, Tree}}
    end || Tree <- Trees].

%% Some of them with less.
short() ->
    [begin
        {Items, Texts} = row(Tree),
        Needed = byte_size(written(Tree)),
        {"room for less than its bytes", one_of([Needed - 1, Needed - 1, 0, rand:uniform(Needed) - 1]), lists:append(Items), Texts, {room, Tree}}
    end || Tree <- [tree(3) || _ <- lists:seq(1, 700)] ++ [around(N, nil) || N <- lists:seq(0, 63)]].

one_of(List) -> lists:nth(rand:uniform(length(List)), List).

shuffled(List) -> [Element || {_, Element} <- lists:sort([{rand:uniform(), Element} || Element <- List])].

times(N, Make) -> [Make() || _ <- lists:seq(1, N)].

any_bytes(N) -> list_to_binary(times(N, fun() -> rand:uniform(256) - 1 end)).

%% Terms without children, each alone.

leaves() ->
    good("integer at a border", [{integer, N} || N <- borders()]) ++
    good("integer of a length", [{integer, sized(Bits)} || Bits <- lists:seq(1, 63), _ <- lists:seq(1, 14)]) ++
    good("double", [{double, Bits} || Bits <- doubles() ++ times(350, fun finite/0)]) ++
    good("atom of characters of one byte", [{atom, name(Length, [1])} || Length <- lists:seq(0, 255)]) ++
    good("atom of characters of more bytes", [{atom, name(Length, [Width])} || Width <- [2, 3, 4],
        Length <- [1, 2, 3, 4, 5, 7, 8, 15, 16, 17, 31, 32, 63, 64, 84, 85, 86, 127, 128, 170, 254, 255]]) ++
    good("atom of over 255 bytes", [{atom, name(127 + rand:uniform(128), [Width])} || Width <- [2, 3, 4], _ <- lists:seq(1, 12)]) ++
    good("atom of characters of any length", [{atom, name(rand:uniform(24), [1, 1, 2, 3, 4])} || _ <- lists:seq(1, 500)]) ++
    good("binary", [{binary, any_bytes(N)} || N <- lists:seq(0, 60) ++ [127, 128, 255, 256, 257, 1000, 4000]] ++
        times(400, fun() -> {binary, any_bytes(rand:uniform(24))} end)) ++
    good("Nil", lists:duplicate(20, nil)).

%% On both sides of every power of two that 64 bits hold, and of 255; and the least.
borders() ->
    lists:usort([-(1 bsl 63), (1 bsl 63) - 2, (1 bsl 63) - 1, 254, -255] ++
        lists:append([[N - 1, N, N + 1, 1 - N, -N, -N - 1] || Bits <- lists:seq(0, 62), N <- [1 bsl Bits]])).

%% An integer of so many bits, and a sign.
sized(Bits) -> one_of([1, -1]) * ((1 bsl (Bits - 1)) + rand:uniform(1 bsl (Bits - 1)) - 1).

doubles() ->
    Doubles = [0.0, -0.0, 1.0, -1.0, 1.5, 0.1, 255.0, 256.0, 2147483648.0, 1.0e100, -1.0e-100, 2.2250738585072014e-308, 5.0e-324, -5.0e-324,
        1.7976931348623157e308, -1.7976931348623157e308],
    [Bits || Double <- Doubles, <<Bits:64>> <- [<<Double/float>>]].

finite() ->
    Bits = rand:uniform(?WORD) - 1,
    case is_erlang({double, Bits}) of
        true -> Bits;
        false -> finite()
    end.

%% A name of so many characters, each with one of these numbers of bytes.
name(Length, Widths) -> unicode:characters_to_binary(times(Length, fun() -> character(one_of(Widths)) end)).

character(1) -> one_of([rand:uniform(128) - 1, $a + rand:uniform(26) - 1, $a + rand:uniform(26) - 1]);
character(2) -> one_of([16#80, 16#7ff, 16#7f + rand:uniform(16#780)]);
character(3) -> one_of([16#800, 16#d7ff, 16#e000, 16#ffff, 16#7ff + rand:uniform(16#d000), 16#dfff + rand:uniform(16#2000)]);
character(4) -> one_of([16#10000, 16#10ffff, 16#ffff + rand:uniform(16#100000)]).

%% Terms with children.

%% About 255 children a tuple takes another tag, about 32 keys Erlang keeps a map in another way.
wide() ->
    Few = lists:seq(0, 40),
    Many = [100, 254, 255, 255, 256, 256, 256, 257, 300],
    good("tuple", [{tuple, times(N, fun leaf/0)} || N <- Few] ++ [{tuple, copies(N)} || N <- Many]) ++
    good("list", [{list, times(N, fun leaf/0)} || N <- Few] ++ [{list, copies(N)} || N <- Many]) ++
    good("list of integers from 0 to 255", [{list, times(N, fun() -> {integer, rand:uniform(256) - 1} end)} || N <- Few ++ [255, 256, 300]]) ++
    good("list of empty lists and Nils", [{list, times(N, fun() -> one_of([{list, []}, nil, {list, [{list, []}]}, {tuple, []}]) end)} ||
        N <- lists:seq(1, 6), _ <- lists:seq(1, 8)]) ++
    good("map", [{map, pairs(N, fun leaf/0)} || N <- Few] ++
        [{map, [{{integer, Key}, leaf()} || Key <- shuffled(lists:seq(1, N))]} || N <- [31, 32, 33, 100]]) ++
    good("large tuple or long atom in another", places({tuple, copies(256)}) ++ places({atom, name(100, [3])})).

copies(N) -> lists:duplicate(N, one_of([nil, {integer, 7}, {integer, -1}, {tuple, []}])).

leaf() ->
    case rand:uniform(10) of
        1 -> {integer, one_of(borders())};
        2 -> {integer, sized(rand:uniform(63))};
        3 -> {integer, rand:uniform(256) - 1};
        4 -> {double, one_of([finite() | doubles()])};
        5 -> {atom, name(rand:uniform(13) - 1, [1, 1, 2, 3, 4])};
        6 -> {atom, name(rand:uniform(20) - 1, [1])};
        7 -> {binary, any_bytes(rand:uniform(13) - 1)};
        8 -> nil;
        9 -> {list, []};
        10 -> one_of([{tuple, []}, {map, []}, {atom, <<"ok">>}, {atom, <<"true">>}])
    end.

pairs(N, Make) -> different(times(N, fun() -> {Make(), Make()} end)).

%% A term where each can stand: alone, and as a child of every kind.
places(Tree) ->
    [Tree, {tuple, shuffled([Tree, leaf(), leaf()])}, {list, shuffled([Tree, leaf()])}, {map, [{Tree, leaf()}]}, {map, [{leaf(), Tree}]}].

among(Tree) -> one_of(places(Tree)).

nested() -> good("of all kinds, nested", times(7100, fun() -> tree(one_of([2, 3, 3, 4])) end)).

%% Nested so deep at most, and one deeper where an empty list is at the bottom.
tree(1) -> leaf();
tree(Levels) ->
    Below = fun() -> tree(Levels - 1) end,
    case rand:uniform(7) of
        1 -> leaf();
        2 -> {tuple, times(rand:uniform(3), Below)};
        3 -> {tuple, times(rand:uniform(4) - 1, Below)};
        4 -> {list, times(rand:uniform(3), Below)};
        5 -> {list, times(rand:uniform(4) - 1, Below)};
        6 -> {map, pairs(1, Below)};
        7 -> {map, pairs(rand:uniform(4) - 1, Below)}
    end.

%% To 64 levels, of which a list's tail is one.
deep() ->
    Bottoms = [nil, {integer, -1}, {atom, <<"deep">>}, {tuple, []}, {map, []}],
    good("nested to 64 levels", [around(N, Bottom) || N <- [10, 40, 61, 62, 63, 63, 63], Bottom <- Bottoms] ++
        times(8, fun() -> around(62, {list, []}) end) ++ [around(63, nil, [Way]) || Way <- lists:seq(1, 6)]).

%% Some terms in each other with this one innermost; each holds the next in one of these ways.
around(Levels, Bottom) -> around(Levels, Bottom, [1, 2, 3, 4, 5, 6]).
around(0, Bottom, _) -> Bottom;
around(Levels, Bottom, Ways) ->
    Inner = around(Levels - 1, Bottom, Ways),
    case one_of(Ways) of
        1 -> {tuple, [Inner]};
        2 -> {tuple, [nil, Inner]};
        3 -> {list, [Inner]};
        4 -> {list, [Inner, {integer, 5}]};
        5 -> {map, [{Inner, nil}]};
        6 -> {map, [{nil, Inner}]}
    end.

%% What Erlang has no term for, alone or in another; its bytes are judged by P1's rules alone.
unread() ->
    good("double that isn't finite", [among({double, Bits}) || Bits <- lists:append(lists:duplicate(20, [16#7ff0000000000000, 16#fff0000000000000,
        16#7ff8000000000000, 16#7ff0000000000001, 16#7fffffffffffffff, 16#ffffffffffffffff]))]) ++
    good("atom of over 255 characters", [{atom, name(Length, [Width])} || Width <- [1, 2, 3, 4], Length <- [256, 257, 400]]) ++
    good("map with a key twice", times(60, fun() ->
        Key = tree(2),
        among({map, shuffled([{Key, leaf()}, {Key, leaf()} | pairs(rand:uniform(3) - 1, fun leaf/0)])})
    end)).

%% Rows that must be refused, whatever room there is.

damaged() ->
    lists:append([refused(Told, times(Count, Make)) || {Told, Count, Make} <- [
        {"a kind that is none", 250, fun other_kind/0},
        {"one or two numbers over", 120, fun numbers_over/0},
        {"nothing", 5, fun() -> {[], any_bytes(rand:uniform(5) - 1)} end},
        {"ends early", 200, fun ends_early/0},
        {"goes on behind its term", 120, fun goes_on/0},
        {"another number of children", 200, fun other_count/0},
        {"a count over its cap", 250, fun over_cap/0},
        {"a text outside the texts", 400, fun outside/0},
        {"a name that isn't UTF-8", 350, fun bad_name/0},
        {"a name that is a part of characters", 100, fun cut_name/0},
        {"nested over 64 levels", 60, fun too_deep/0}]]).

refused(Told, Rows) ->
    [{Told, one_of([0, 1, rand:uniform(50), 500]), lists:flatten(Items), Texts, items} || {Items, Texts} <- Rows].

other_kind() ->
    {Items, Texts} = row(tree(3)),
    Other = one_of([0, 0, 9, 9, 10, 97, 255, 256 + rand:uniform(8), (1 bsl 32) + rand:uniform(8), (1 bsl 63) + rand:uniform(8), ?WORD - 1]),
    {changed(rand:uniform(length(Items)), Items, fun([_, X, Y]) -> [Other, X, Y] end), Texts}.

changed(N, Items, Change) ->
    {Before, [Item | After]} = lists:split(N - 1, Items),
    Before ++ [Change(Item) | After].

%% Which items are of these kinds.
of_kinds(Kinds, Items) -> [N || {N, [Kind | _]} <- lists:zip(lists:seq(1, length(Items)), Items), lists:member(Kind, Kinds)].

numbers_over() ->
    {Items, Texts} = row(tree(3)),
    Over = one_of([[8], [0], [8, 0], [1, 1], [0, 0]]),
    {one_of([Items ++ [Over], lists:droplast(Items) ++ [Over], [Over | Items]]), Texts}.

ends_early() ->
    {Items, Texts} = row(among(tree(3))),
    {lists:sublist(Items, rand:uniform(length(Items)) - 1), Texts}.

goes_on() ->
    {Items, Texts} = row(tree(3)),
    {More, _} = row(one_of([nil, {integer, 5}, {tuple, []}, {list, []}, {tuple, [nil, nil]}])),
    {Items ++ More, Texts}.

%% Of a tuple, a list or a map: one more than it has, or one less.
other_count() ->
    {Items, Texts} = row(one_of([{tuple, [tree(2), tree(3)]}, {list, [tree(2), tree(3)]}, {map, [{tree(2), tree(3)}]}])),
    {changed(one_of(of_kinds([5, 6, 7], Items)), Items, fun([Kind, Count, Y]) ->
        [Kind, if Count =:= 0 -> 1; true -> Count + one_of([1, -1]) end, Y]
    end), Texts}.

%% The caps' next numbers, and counts that would be the true ones in fewer bits, or twice or four times so many.
over_cap() ->
    N = rand:uniform(3) - 1,
    {Items, Texts} = row(among(one_of([{tuple, times(N, fun leaf/0)}, {list, times(N, fun leaf/0)}, {map, pairs(N, fun leaf/0)}]))),
    {changed(one_of(of_kinds([5, 6, 7], Items)), Items, fun([Kind, Count, Y]) ->
        Over = case Kind of 7 -> 1000001; _ -> 10000001 end,
        [Kind, one_of([Over, Over, 1 bsl 31, Count + (1 bsl 32), Count + (1 bsl 61), Count + (1 bsl 62), Count + (1 bsl 63), ?WORD - 1]), Y]
    end), Texts}.

%% A start or a length past the end, by one, by much, or so that their sum is a small number in 64 bits, or one of them in 32.
outside() ->
    {Items, Texts} = row(among(one_of([{atom, name(rand:uniform(20) - 1, [1])}, {binary, any_bytes(rand:uniform(20) - 1)}]))),
    Size = byte_size(Texts),
    J = rand:uniform(20),
    K = rand:uniform(Size + 1) - 1,
    {changed(one_of(of_kinds([3, 4], Items)), Items, fun([Kind, X, Y]) ->
        [Kind | one_of([[Size + 1, 0], [Size, 1], [X, Size - X + 1], [Size + J, Y], [X, Size + J], [?WORD - 1, 0], [?WORD - J, J + K], [?WORD - J, J],
            [X, ?WORD - rand:uniform(max(X, 1))], [X, ?WORD - 1], [1 bsl 63, (1 bsl 63) + K], [X + (1 bsl 32), Y], [X, Y + (1 bsl 32)]])]
    end), Texts}.

%% Bytes that aren't a character, between some that are.
bad_name() ->
    Bad = one_of([<<128>>, <<191>>, <<192, 128>>, <<193, 191>>, <<194>>, <<194, 65>>, <<195, 40>>, <<224, 128, 128>>, <<224, 159, 191>>, <<226, 130>>,
        <<226, 40, 161>>, <<237, 160, 128>>, <<237, 191, 191>>, <<240, 128, 128, 128>>, <<240, 143, 191, 191>>, <<240, 159, 148>>,
        <<244, 144, 128, 128>>, <<245, 128, 128, 128>>, <<248, 136, 128, 128, 128>>, <<254>>, <<255>>]),
    Before = name(one_of([0, 0, rand:uniform(40)]), [1, 1, 1, 1, 2, 3, 4]),
    Behind = name(one_of([0, 0, rand:uniform(40)]), [1]),
    row(among({atom, <<Before/binary, Bad/binary, Behind/binary>>})).

%% From the middle of a character on, or up to there.
cut_name() ->
    Name = <<(name(1, [2, 3, 4]))/binary, (name(rand:uniform(20) - 1, [1, 2]))/binary, (name(1, [2, 3, 4]))/binary>>,
    {Items, Texts} = row({tuple, [{atom, Name}]}),
    {changed(2, Items, fun([3, X, Y]) -> one_of([[3, X + 1, Y - 1], [3, X, Y - 1]]) end), Texts}.

too_deep() -> row(one_of([around(64, nil), around(64, leaf()), around(63, {list, []}), around(63 + rand:uniform(10), nil)])).

%% Long ones: the most bytes that may be written, for which there isn't room, and one more; a name of 65,536 bytes.
long() ->
    Bytes = any_bytes(9155),
    Row = fun(Last) -> lists:flatten([[5, 1832, 0], lists:duplicate(1831, [4, 0, 9155]), [4, 0, Last]]) end,
    Tree = {tuple, lists:duplicate(1831, {binary, Bytes}) ++ [{binary, binary:part(Bytes, 0, 5245)}]},
    16777216 = byte_size(written(Tree)),
    [{"16,777,216 bytes", 300, Row(5245), Bytes, {room, Tree}},
     {"16,777,217 bytes", 300, Row(5246), Bytes, items},
     {"a name of 65,536 bytes", 300, [3, 0, 65536], binary:copy(<<"a">>, 65536), items}].

%% The tree that a row is by P1's rules, items where it is none: with no look at what the row was made of.
taken(Numbers, Texts) ->
    try
        {Tree, []} = term(Numbers, Texts, 1),
        true = byte_size(written(Tree)) =< 16777216,
        Tree
    catch
        error:_ -> items
    end.

term([1, X, _ | Numbers], _, Level) when Level =< 64 -> <<N:64/signed>> = <<X:64>>, {{integer, N}, Numbers};
term([2, X, _ | Numbers], _, Level) when Level =< 64 -> {{double, X}, Numbers};
term([3, X, Y | Numbers], Texts, Level) when Level =< 64, Y =< 65535 ->
    Name = binary:part(Texts, X, Y),
    true = is_list(unicode:characters_to_list(Name)),
    {{atom, Name}, Numbers};
term([4, X, Y | Numbers], Texts, Level) when Level =< 64 -> {{binary, binary:part(Texts, X, Y)}, Numbers};
term([5, X, _ | Numbers], Texts, Level) when Level =< 64, X =< 10000000 ->
    {Trees, Rest} = terms(X, Numbers, Texts, Level + 1),
    {{tuple, Trees}, Rest};
%% the tail is one level deeper, be there elements or not
term([6, X, _ | Numbers], Texts, Level) when Level =< 63, X =< 10000000 ->
    {Trees, Rest} = terms(X, Numbers, Texts, Level + 1),
    {{list, Trees}, Rest};
term([7, X, _ | Numbers], Texts, Level) when Level =< 64, X =< 1000000 ->
    {Trees, Rest} = terms(2 * X, Numbers, Texts, Level + 1),
    {{map, paired(Trees)}, Rest};
term([8, _, _ | Numbers], _, Level) when Level =< 64 -> {nil, Numbers}.

terms(0, Numbers, _, _) -> {[], Numbers};
terms(N, Numbers, Texts, Level) ->
    {Tree, Rest} = term(Numbers, Texts, Level),
    {Trees, Behind} = terms(N - 1, Rest, Texts, Level),
    {[Tree | Trees], Behind}.

paired([]) -> [];
paired([Key, Value | Trees]) -> [{Key, Value} | paired(Trees)].

%% The judge.

judge() ->
    {ok, Version} = file:read_file(filename:join([code:root_dir(), "releases", erlang:system_info(otp_release), "OTP_VERSION"])),
    {ok, File} = file:read_file(os:getenv("ANSWERS")),
    Answers = binary:split(File, <<"\n">>, [global, trim]),
    Rows = rows(),
    length(Rows) =:= length(Answers) orelse stop("~b rows have ~b answers", [length(Rows), length(Answers)]),
    Judged = lists:append(lists:zipwith(fun judged/2, Rows, Answers)),
    io:format("OTP ~s~b rows, each answered as document 02's rules say:~n", [Version, length(Rows)]),
    tell([Told || {Told, _, _, _, _} <- Rows], "~6b ~s~n"),
    tell(Judged, "~b ~s~n"),
    io:format("terms written, by tag:~n"),
    tell(lists:sort([tag(Tree) || {_, _, _, _, {done, Written}} <- Rows, Tree <- every(Written)]), "~6b ~b~n"),
    halt(0).

stop(Format, Words) ->
    io:format(standard_error, "lists/writes: " ++ Format ++ "~n", Words),
    halt(1).

tell(Things, Format) ->
    Count = fun(Thing, {Order, Counts}) ->
        {case Counts of #{Thing := _} -> Order; _ -> [Thing | Order] end, maps:update_with(Thing, fun(N) -> N + 1 end, 1, Counts)}
    end,
    {Order, Counts} = lists:foldl(Count, {[], #{}}, Things),
    [io:format(Format, [map_get(Thing, Counts), Thing]) || Thing <- lists:reverse(Order)].

tag(Tree) -> binary:first(bytes(Tree)).

%% The row means what it was made of, and the whole answer is the one that the rules give. What is written is a term for Erlang too, the one
%% meant, and nothing behind it.
judged({_, Room, Numbers, Texts, Want} = Row, Answer) ->
    Meant = case Want of {_, Of} -> Of; items -> items end,
    taken(Numbers, Texts) =:= Meant orelse stop("~s~n  isn't what it was made of", [request(Row)]),
    Wanted = iolist_to_binary(answer(Want, Room)),
    Answer =:= Wanted orelse stop("~s~n  is answered ~s~n  and must be  ~s", [request(Row), Answer, Wanted]),
    case Want of
        {done, Tree} -> judged_term(Tree, Row, written_in(Answer));
        {room, _} -> ["refused for want of room, with the bytes needed"];
        items -> ["refused for their items"]
    end.

written_in(Answer) ->
    [_, Behind] = binary:split(Answer, <<" bytes=">>),
    [Hex, _] = binary:split(Behind, <<" ">>),
    binary:decode_hex(Hex).

judged_term(Tree, Row, Bytes) ->
    case is_erlang(Tree) of
        false ->
            {'EXIT', {badarg, _}} = catch binary_to_term(Bytes),
            ["written, and no term for Erlang"];
        true ->
            Term = meant(Tree),
            binary_to_term(Bytes, [used]) =:= {Term, byte_size(Bytes)} orelse stop("~s~n  is another term for Erlang", [request(Row)]),
            ["written, and for Erlang the term meant" | judged_bytes(is_plain(Tree), Tree, Row, Bytes, term_to_binary(Term, [{minor_version, 2}]))]
    end.

judged_bytes(false, _, _, _, _) -> [];
judged_bytes(true, _, _, Bytes, Bytes) -> ["of these with the bytes that term_to_binary writes"];
judged_bytes(true, Tree, Row, _, Own) ->
    written(ordered(Tree)) =:= Own orelse stop("~s~n  has other bytes from Erlang", [request(Row)]),
    ["of these with those bytes in another order of a map"].
