%% Two real nodes whose headers have segment number 0 in every reference, and what they said to each other, as request lines with their answers.
%% lists/heard compiles and starts this: answer() on the node that is called, call() on the node that calls. The calling node reaches the other
%% through a proxy of its own on loopback, which keeps every message of both directions. HEARD_DIR is the folder that the two share.
%%
%% The answers come from the side that speaks. What it said, by the chapter's control messages, is held against the bytes term by term; where the
%% bytes have 82 and a position, the atom that was said there is that position's name, and its slot is the one that the atom was made for (only
%% of '', true and false, which OTP makes, the slot is taken from the header). The header's own slots and names are compared afterwards.
-module(heard).
-export([answer/0, call/0]).
-export([start_link/0, listen_port_please/2, register_node/3, address_please/3, names/1]).

-define(LOOPBACK, {127, 0, 0, 1}).
-define(LIMIT, 64).
-define(WORDS, 5000).
%% OTP numbers atoms as they are made. The number modulo this one is an atom's place in the cache: 256 times its segment, and its slot.
-define(PLACES, 2039).
%% Flags of the handshake. Without them a node sends as to an older one: SEND with no sender, a reason inside the control message, UNLINK.
-define(SEND_SENDER, 16#80000).
-define(EXIT_PAYLOAD, 16#400000).
-define(UNLINK_ID, 16#2000000).
%% A number in a control message that the node chose by itself.
-define(ANY, '_').

%% In epmd's place: a node keeps its own port, which the answering one writes into a file; where that one is asked for, the port is the proxy's.

start_link() -> ignore.

listen_port_please(_Name, _Host) -> {ok, 0}.

register_node(_Name, Port, _Family) ->
    persistent_term:put(own, Port),
    {ok, 1}.

address_please("drawer", _Host, _Family) -> {ok, ?LOOPBACK, persistent_term:get(proxy), 6};
address_please(_Name, _Host, _Family) -> {error, nxdomain}.

names(_Host) -> {error, address}.

path(File) -> filename:join(os:getenv("HEARD_DIR"), File).

write(File, Text) ->
    ok = file:write_file(path(["new.", File]), unicode:characters_to_binary(Text)),
    ok = file:rename(path(["new.", File]), path(File)).

%% The atoms that are said. They are made in a row, from a place of segment 0 on, before anything else has made them; so they stand here as texts.
%% The second row has the slots of some of the first, so that names push each other out. The two nodes have their rows in different orders.

first() ->
    ["bench@127.0.0.1", "drawer@127.0.0.1", "tester@127.0.0.1", "ear", "hear", "teller", "listener"] ++ foreign() ++ long()
        ++ [row(I) || I <- lists:seq(1, 200)].

%% Other letters than ASCII's, of every length in UTF-8, and names of 254 and 255 bytes
foreign() ->
    [[233], [1078, 1091, 1082], [20320, 22909], [128013], [1, 127, 128, 16#7ff, 16#800], [16#d7ff, 16#e000, 16#ffff, 16#10000, 16#10ffff],
        lists:duplicate(254, $s), lists:duplicate(85, 8364)].

%% Names of 256 and 1,020 bytes
long() -> [lists:duplicate(128, 233), lists:duplicate(255, 128013)].

row(I) -> "row" ++ integer_to_list(I).

second() -> ["again" ++ integer_to_list(I) || I <- lists:seq(1, 8)].

rows(there) -> [{16, first()}, {100, second()}];
rows(back) -> [{16, lists:reverse(first())}, {100, second()}].

make(Slot, Texts) ->
    case erlang:system_info(atom_count) of
        Number when Number rem ?PLACES =:= Slot -> [make_one(Text) || Text <- Texts];
        Number -> _ = list_to_atom("filling" ++ integer_to_list(Number)), make(Slot, Texts)
    end.

make_one(Text) ->
    Number = erlang:system_info(atom_count),
    _ = list_to_atom(Text),
    %% just this one was made
    Number = erlang:system_info(atom_count) - 1.

atom(Text) -> list_to_existing_atom(Text).

slots(Way) -> maps:from_list([{atom(Text), Slot + I} || {Slot, Texts} <- rows(Way), {I, Text} <- numbered(Texts)]).

numbered(List) -> lists:zip(lists:seq(0, length(List) - 1), List).

%% The two nodes. Neither outlives two minutes.

talks() -> [{new, 0}, {old, ?SEND_SENDER bor ?EXIT_PAYLOAD bor ?UNLINK_ID}].

answer() ->
    begin_node(back, "drawer@127.0.0.1"),
    ok = net_kernel:monitor_nodes(true, [{node_type, all}]),
    write("port", integer_to_list(persistent_term:get(own))),
    [receive {nodedown, _, _} -> ok end || _ <- talks()],
    halt(0).

call() ->
    begin_node(there, "bench@127.0.0.1"),
    process_flag(trap_exit, true),
    register(atom("teller"), self()),
    Port = other_port(600),
    Ways = lists:append([talk(Port, Age, Without) || {Age, Without} <- talks()]),
    {ok, Version} = file:read_file(filename:join([code:root_dir(), "releases", erlang:system_info(otp_release), "OTP_VERSION"])),
    Heard = [{Age, Way, heard(Way, Messages)} || {Age, Way, Messages} <- Ways],
    io:format("OTP ~s", [Version]),
    tell(Heard),
    Lines = lists:append([lines(Age, Way, Messages) || {Age, Way, Messages} <- Heard]),
    write("requests", [[Request, "\n"] || {Request, _, _} <- Lines]),
    write("answers", [[Answer, "\n"] || {_, Answer, _} <- Lines]),
    write("names", [[integer_to_list(I + 1), "\t", Text, "\n"] || {I, {_, _, [_ | _] = Text}} <- numbered(Lines)]),
    halt(0).

begin_node(Way, Name) ->
    {ok, _} = timer:apply_after(120000, erlang, halt, [1]),
    [make(Slot, Texts) || {Slot, Texts} <- rows(Way)],
    {module, _} = code:load_file(atom("ear")),
    {ok, _} = net_kernel:start([atom(Name), longnames]).

other_port(0) -> exit("the other node doesn't start");
other_port(Tries) ->
    case file:read_file(path("port")) of
        {ok, Port} -> binary_to_integer(Port);
        {error, _} -> timer:sleep(100), other_port(Tries - 1)
    end.

%% The proxy. It hands the handshake on, with some flags taken out, and then keeps and passes on.

open_proxy(Port, Without) ->
    Options = [binary, {active, false}, {packet, 2}, {nodelay, true}],
    {ok, Listening} = gen_tcp:listen(0, [{ip, ?LOOPBACK} | Options]),
    {ok, Own} = inet:port(Listening),
    persistent_term:put(proxy, Own),
    spawn(fun() ->
        {ok, Caller} = gen_tcp:accept(Listening),
        {ok, Other} = gen_tcp:connect(?LOOPBACK, Port, Options),
        %% name, status, challenge, reply, acknowledgement
        Order = [{Caller, Other}, {Other, Caller}, {Other, Caller}, {Caller, Other}, {Other, Caller}],
        [hand_on(From, To, Without) || {From, To} <- Order],
        [ok = inet:setopts(Socket, [{packet, 4}, {active, true}]) || Socket <- [Caller, Other]],
        pass(Caller, Other, [], [])
    end).

hand_on(From, To, Without) ->
    {ok, Message} = gen_tcp:recv(From, 0),
    ok = gen_tcp:send(To, without(Without, Message)).

without(Without, <<$N, Flags:64, Rest/binary>>) -> <<$N, (Flags band bnot Without):64, Rest/binary>>;
without(_, Message) -> Message.

%% A message of no bytes says that the node lives.
pass(Caller, Other, There, Back) ->
    receive
        {tcp, Caller, Message} -> ok = gen_tcp:send(Other, Message), pass(Caller, Other, [M || <<_, _/binary>> = M <- [Message]] ++ There, Back);
        {tcp, Other, Message} -> ok = gen_tcp:send(Caller, Message), pass(Caller, Other, There, [M || <<_, _/binary>> = M <- [Message]] ++ Back);
        {kept, Asker} -> Asker ! {kept, lists:reverse(There), lists:reverse(Back)}, pass(Caller, Other, There, Back);
        {tcp_closed, _} -> ok
    end.

%% All messages of a connection, each with what was said.

talk(Port, Age, Without) ->
    Proxy = open_proxy(Port, Without),
    Node = atom("drawer@127.0.0.1"),
    true = net_kernel:connect_node(Node),
    put(there, []),
    put(back, []),
    play(Node, Age),
    timer:sleep(500),
    Proxy ! {kept, self()},
    receive {kept, There, Back} -> ok end,
    true = erlang:disconnect_node(Node),
    timer:sleep(500),
    [{Age, there, both(There, lists:reverse(get(there)))}, {Age, back, both(Back, lists:reverse(get(back)))}].

both(Messages, Said) when length(Messages) =:= length(Said) -> lists:zip(Messages, Said);
both(Messages, Said) ->
    io:format("~b messages, where ~b were said~n", [length(Messages), length(Said)]),
    [io:format("~w~n  ~w~n", [M, S]) || {M, S} <- lists:zip(lists:sublist(Messages, length(Said)), lists:sublist(Said, length(Messages)))],
    halt(1).

%% Notes what goes there and what comes back: a control message alone, or with a term behind it.
there(Said) -> put(there, [Said | get(there)]).

back(Said) -> put(back, [Said | get(back)]).

%% Waits for a message.
expect(Message) ->
    receive
        Message -> ok
    after 5000 ->
        io:format("not heard: ~p~nbut ~p~n", [Message, process_info(self(), messages)]),
        halt(1)
    end.

%% The chapter's control messages that an older node knows in another form

send(new, From, To, Term) -> {{22, From, To}, Term};
send(old, _, To, Term) -> {{2, '', To}, Term}.

leave(new, From, To, Reason) -> {{24, From, To}, Reason};
leave(old, From, To, Reason) -> {{3, From, To, Reason}}.

push(new, From, To, Reason) -> {{26, From, To}, Reason};
push(old, From, To, Reason) -> {{8, From, To, Reason}}.

down(new, From, To, Monitor, Reason) -> {{28, From, To, Monitor}, Reason};
down(old, From, To, Monitor, Reason) -> {{21, From, To, Monitor, Reason}}.

%% What is said. Each term goes there in one of several ways and comes back.

play(Node, Age) ->
    Me = self(),
    Ear = begin_ear(Node, 0, Me),
    Pushed = begin_ear(Node, 1, Me),
    Named = begin_ear(Node, 0, {atom("teller"), node()}),
    Alias = alias(),
    Aliased = begin_ear(Node, 0, Alias),
    Listener = atom("listener"),
    Named ! {1, Listener},
    there(send(Age, Me, Named, {1, Listener})),
    expect(Listener),
    back({{6, Named, '', atom("teller")}, Listener}),

    %% messages to a process, to a name and to a process that answers an alias
    ToEar = fun(Term) ->
        Ear ! Term,
        there(send(Age, Me, Ear, Term)),
        expect(Term),
        back(send(Age, Ear, Me, Term))
    end,
    ToName = fun(Term) ->
        {Listener, Node} ! Term,
        there({{6, Me, '', Listener}, Term}),
        expect(Term),
        back({{6, Named, '', atom("teller")}, Term})
    end,
    ToAliased = fun(Term) ->
        Aliased ! Term,
        there(send(Age, Me, Aliased, Term)),
        expect(Term),
        back({{33, Aliased, Alias}, Term})
    end,
    %% exits: asked for, of a linked process, of a watched one; here, and on the other node
    Push = fun(Term) ->
        exit(Pushed, Term),
        there(push(Age, Me, Pushed, Term)),
        expect({'EXIT', Pushed, Term}),
        back(push(Age, Pushed, Me, Term))
    end,
    Linked = fun(Term) ->
        Pid = spawn(fun() -> link(Pushed), exit(Term) end),
        there({{1, Pid, Pushed}}),
        there(leave(Age, Pid, Pushed, Term)),
        expect({'EXIT', Pushed, Term}),
        back(push(Age, Pushed, Me, Term))
    end,
    Watched = fun(Term) ->
        Pid = spawn(fun() -> receive go -> exit(Term) end end),
        Ear ! {3, Pid},
        there(send(Age, Me, Ear, {3, Pid})),
        Monitor = receive Reference when is_reference(Reference) -> Reference end,
        back({{19, Ear, Pid, Monitor}}),
        back(send(Age, Ear, Me, Monitor)),
        Pid ! go,
        there(down(Age, Pid, Ear, Monitor, Term)),
        expect(Term),
        back(send(Age, Ear, Me, Term))
    end,
    LinkedThere = fun(Term) ->
        Far = begin_ear(Node, 0, Me),
        link(Far),
        there({{1, Me, Far}}),
        Far ! {4, Term},
        there(send(Age, Me, Far, {4, Term})),
        expect({'EXIT', Far, Term}),
        back(leave(Age, Far, Me, Term))
    end,
    WatchedThere = fun(Term) ->
        Far = begin_ear(Node, 0, Me),
        Monitor = monitor(process, Far),
        there({{19, Me, Far, Monitor}}),
        Far ! {4, Term},
        there(send(Age, Me, Far, {4, Term})),
        expect({'DOWN', Monitor, process, Far, Term}),
        back(down(Age, Far, Me, Monitor, Term))
    end,

    signals(Node, Age, Ear, Pushed),
    ToEar(atom("row1")),
    %% names of over 255 bytes: each alone at first, then with other names, new and old
    [begin
        ToEar(atom(Text)),
        ToEar({atom(Text), atom(row(181))}),
        ToEar([atom(Text), atom(row(I)), atom(row(I + 1))]),
        ToEar([atom(Text), atom(row(I + 1)), atom(row(I + 2)) | atom(row(I + 3))])
    end || {I, Text} <- lists:zip([182, 186], long())],
    Ways = case Age of
        new -> [ToEar, ToName, ToAliased, ToEar, ToName, Push, Linked, Watched, LinkedThere, WatchedThere];
        old -> [Push, Linked, Watched, ToEar, Push, LinkedThere, ToName, WatchedThere]
    end,
    in_turn(Ways, Ways, terms(Me, Ear)),
    pushed_out(case Age of new -> ToEar; old -> Push end).

begin_ear(Node, How, To) ->
    Request = spawn_request(Node, atom("ear"), atom("hear"), [How, To], []),
    Ear = receive {spawn_reply, Request, ok, Pid} -> Pid end,
    there({{29, Request, self(), group_leader(), {atom("ear"), atom("hear"), 2}, []}, [How, To]}),
    back({{31, Request, self(), 0, Ear}}),
    Ear.

%% Links, monitors, leaders: control messages with nothing behind them
signals(Node, Age, Ear, Other) ->
    Me = self(),
    link(Ear),
    there({{1, Me, Ear}}),
    unlink(Ear),
    case Age of
        new -> there({{35, ?ANY, Me, Ear}}), back({{36, ?ANY, Ear, Me}});
        old -> there({{4, Me, Ear}})
    end,
    [begin
        Monitor = monitor(process, Item),
        there({{19, Me, To, Monitor}}),
        demonitor(Monitor),
        there({{20, Me, To, Monitor}})
    end || {Item, To} <- [{Ear, Ear}, {{atom("listener"), Node}, atom("listener")}]],
    [begin
        group_leader(Leader, Ear),
        there({{7, Leader, Ear}})
    end || Leader <- [Other, Me, pid_of("tester@127.0.0.1"), Other]].

in_turn(_, _, []) -> ok;
in_turn([], Ways, Terms) -> in_turn(Ways, Ways, Terms);
in_turn([Way | Next], Ways, [Term | Terms]) -> Way(Term), in_turn(Next, Ways, Terms).

%% Names of one slot, here or on the other node, alone and in one message, where only one of them can be referred to
pushed_out(Say) ->
    Rival = fun(Way, Text) -> [Own] = [A || {A, S} <- maps:to_list(slots(Way)), S =:= maps:get(atom(Text), slots(Way)), A =/= atom(Text)], Own end,
    [begin
        Say(atom(Text)),
        Say(Rival(Way, Text)),
        Say({atom(Text), Rival(Way, Text)}),
        Say([Rival(Way, Text) | atom(Text)])
    end || {Way, Text} <- [{there, "again1"}, {back, "again5"}]].

terms(Me, Ear) ->
    R = fun(I) -> atom(row(I)) end,
    Foreign = [atom(T) || T <- foreign()],
    Tester = pid_of("tester@127.0.0.1"),
    Module = atom("ear"),
    Some = [
        R(1),
        {R(1), R(2)},
        [R(3), R(1), R(4)],
        [R(5) | R(6)],
        [R(5), {R(7)}, R(8), 300 | R(1)],
        #{R(9) => R(10)},
        #{R(10) => R(9), 5 => R(11), R(12) => "text", <<"key">> => [R(11)]},
        [{R(13), #{R(14) => [#{R(14) => R(13)}, [R(15) | {R(16)}]]}}, R(2)],
        {Me, Ear, Tester, R(17)},
        #{Tester => make_ref(), reference_of("tester@127.0.0.1") => Me},
        [port_of("tester@127.0.0.1"), R(17), port_of("bench@127.0.0.1") | port_of("drawer@127.0.0.1")],
        {erlang:make_fun(R(18), R(19), 3), [erlang:make_fun(R(19), R(18), 255)]},
        Module:fresh(),
        {Module:bound(R(20), [R(21) | R(22)]), R(20)},
        Module:bound(Module:bound(Ear, ''), #{R(23) => erlang:make_fun(Module, atom("hear"), 2)}),
        {true, false, '', [true | false], #{true => ''}},
        Foreign,
        maps:from_list(lists:zip(Foreign, lists:reverse(Foreign))),
        {R(24), 0, 255, 256, -1, 2147483647, -2147483648, 1 bsl 40, -(1 bsl 70), 1.5, "text", <<>>, <<1, 2, 3>>, <<5:3>>, [], {}, #{}, R(25)},
        lists:foldl(fun(I, Term) -> {R(I rem 3 + 26), Term} end, R(26), lists:seq(1, 40))
    ],
    %% of names only: few, new and old ones mixed, in odd and even counts, then many
    Few = [[R(I * I + J) || J <- lists:seq(1, I)] || I <- lists:seq(0, 12)],
    Many = [[R(I) || I <- lists:seq(From, To)] || {From, To} <- [{1, 27}, {40, 99}, {1, 124}, {1, 200}]],
    Some ++ Few ++ Many ++ Some.

%% Of nodes that are not there, or no longer: a port of such a number comes as tag 120.
pid_of(Node) -> binary_to_term(<<131, 88, (named(Node))/binary, 7:32, 1:32, 9:32>>).

reference_of(Node) -> binary_to_term(<<131, 90, 3:16, (named(Node))/binary, 9:32, 1:32, 2:32, 3:32>>).

port_of(Node) -> binary_to_term(<<131, 120, (named(Node))/binary, (1 bsl 40 + 5):64, 9:32>>).

named(Text) -> <<119, (length(Text)), (list_to_binary(Text))/binary>>.

%% What was said, held against the bytes. Each message becomes the inputs that are made of it: the header with the control message, and with the
%% term behind it where there is one; each {Bytes, tree}.

heard(Way, Messages) ->
    {Heard, _} = lists:mapfoldl(fun({Message, Said}, Cache) -> heard(slots(Way), Message, Said, Cache) end, #{}, Messages),
    Heard.

heard(Slots, Message, Said, Cache) ->
    {End, References} = header(Message),
    Header = binary:part(Message, 0, End),
    Control = tree(Message, End, element(1, Said)),
    {_, _, Behind, _, _} = Control,
    Inputs = case Said of
        {_} -> Behind = byte_size(Message), [{Message, Control}];
        {_, Term} ->
            Second = <<Header/binary, (binary:part(Message, Behind, byte_size(Message) - Behind))/binary>>,
            Whole = byte_size(Second),
            {_, _, Whole, _, _} = Payload = tree(Second, End, Term),
            [{binary:part(Message, 0, Behind), Control}, {Second, Payload}]
    end,
    %% by what was said; each position has one name, and no name has two
    Names = lists:usort(lists:append([referred(Tree, Bytes) || {Bytes, Tree} <- Inputs])),
    Count = length(References),
    true = [I || {I, _} <- Names] =:= lists:seq(0, Count - 1),
    Count = length(lists:usort([Name || {_, Name} <- Names])),
    %% by the header, in which every segment number is 0
    Now = lists:foldl(fun({new, 0, Slot, Text}, C) -> C#{Slot => Text}; ({old, 0, _, _}, C) -> C end, Cache, References),
    Positions = [begin
        Text = atom_to_binary(Name),
        Text = maps:get(Slot, Now),
        Slot = maps:get(Name, Slots, Slot),
        {Age, Name, Slot}
    end || {{_, Name}, {Age, 0, Slot, _}} <- lists:zip(Names, References)],
    {{Said, Inputs, Positions}, Now}.

referred({82, From, _, Said, _}, Bytes) -> [{binary:at(Bytes, From + 1), Said}];
referred({_, _, _, _, Children}, Bytes) -> lists:append([referred(Child, Bytes) || Child <- Children]).

%% Where a header ends, and its references, by the chapter.
header(<<131, 68, Count, Rest/binary>> = Message) ->
    Size = Count div 2 + 1,
    <<Flags:Size/binary, References/binary>> = Rest,
    Halves = lists:append([[Low, High] || <<High:4, Low:4>> <= Flags]),
    {Read, Body} = references(lists:sublist(Halves, Count), 8 + 8 * (lists:nth(Count + 1, Halves) band 1), References),
    {byte_size(Message) - byte_size(Body), Read}.

references([], _, Rest) -> {[], Rest};
references([Half | Halves], Bits, <<Slot, Bytes/binary>>) ->
    {Age, Name, Rest} = case Half of
        _ when Half >= 8 -> <<Length:Bits, Text:Length/binary, Behind/binary>> = Bytes, {new, Text, Behind};
        _ -> {old, none, Bytes}
    end,
    {References, Body} = references(Halves, Bits, Rest),
    {[{Age, Half band 7, Slot, Name} | References], Body}.

%% The term at a place, with what was said there: {Tag, From, To, Said, Children}.
tree(Bytes, At, Said) ->
    <<_:At/binary, Tag, Rest/binary>> = Bytes,
    {Before, Terms, After} = row(Tag, Rest, Said),
    {Children, Behind} = lists:mapfoldl(fun(Term, From) -> Child = tree(Bytes, From, Term), {Child, element(3, Child)} end, At + 1 + Before, Terms),
    true = After =:= 0 orelse binary:part(Bytes, Behind, After) =:= last(After, term_to_binary(Said, [{minor_version, 2}])),
    {Tag, At, Behind + After, Said, Children}.

last(Length, Bytes) -> binary:part(Bytes, byte_size(Bytes), -Length).

%% How many bytes stand between tag and children, the children, and how many bytes stand behind them
row(82, _, Said) when is_atom(Said) -> {1, [], 0};
row(119, <<Length, Name:Length/binary, _/binary>>, Said) -> Said = binary_to_atom(Name), {1 + Length, [], 0};
row(97, <<Number, _/binary>>, Said) -> same(Number, Said), {1, [], 0};
row(98, <<Number:32/signed, _/binary>>, Said) -> same(Number, Said), {4, [], 0};
row(110, <<Length, Sign, Digits:Length/unit:8-little, _/binary>>, Said) -> same(Digits - 2 * Sign * Digits, Said), {2 + Length, [], 0};
row(70, <<Float/float, _/binary>>, Float) -> {8, [], 0};
row(106, _, []) -> {0, [], 0};
row(107, <<Length:16, Text:Length/binary, _/binary>>, Said) -> Said = binary_to_list(Text), {2 + Length, [], 0};
row(108, <<Length:32, _/binary>>, Said) -> {4, elements(Length, Said), 0};
row(109, <<Length:32, Text:Length/binary, _/binary>>, Text) -> {4 + Length, [], 0};
row(77, <<Length:32, Bits, Text:Length/binary, _/binary>>, Said) ->
    Size = 8 * Length - 8 + Bits,
    <<Said:Size/bitstring, _/bitstring>> = Text,
    {5 + Length, [], 0};
row(104, <<Arity, _/binary>>, Said) when tuple_size(Said) =:= Arity -> {1, tuple_to_list(Said), 0};
row(116, <<Arity:32, _/binary>>, Said) when map_size(Said) =:= Arity -> {4, lists:append([[Key, Value] || {Key, Value} <- maps:to_list(Said)]), 0};
row(88, _, Said) when is_pid(Said) -> {0, [node(Said)], 12};
row(90, <<Count:16, _/binary>>, Said) when is_reference(Said) -> {2, [node(Said)], 4 + 4 * Count};
row(120, _, Said) when is_port(Said) -> {0, [node(Said)], 12};
row(113, _, Said) when is_function(Said) -> {0, [about(Said, Of) || Of <- [module, name, arity]], 0};
row(112, <<_:32, Arity, Unique:16/binary, Index:32, Count:32, _/binary>>, Said) when is_function(Said, Arity) ->
    [Unique, Index, Free] = [about(Said, Of) || Of <- [new_uniq, new_index, env]],
    Count = length(Free),
    {29, [about(Said, Of) || Of <- [module, index, uniq, pid]] ++ Free, 0}.

same(_, ?ANY) -> ok;
same(Number, Number) -> ok.

about(Function, Of) -> element(2, erlang:fun_info(Function, Of)).

elements(0, Tail) -> [Tail];
elements(Length, [Element | Rest]) -> [Element | elements(Length - 1, Rest)].

%% Request lines, their answers, and for each input what it is. A new name of over 255 bytes is refused as Name, and its slot stays empty. So a
%% message that brings one, a term that refers to one, and its position are left out.

lines(Age, Way, Messages) ->
    [{"clear", "names=0", ""} | lists:append([
        [message(io_lib:format("~s ~s ~b ~s", [Age, Way, I + 1, Part]), Input, Positions) | asked(Positions)]
        || {I, {_, _, Positions} = Message} <- numbered(Messages), {Part, Input} <- stored(Message)])].

stored({_, Inputs, Positions}) ->
    [{Part, Input} || {Part, {Bytes, Tree} = Input} <- lists:zip(lists:sublist(["control", "term"], length(Inputs)), Inputs),
        not lists:any(fun is_long/1, [Name || {new, Name, _} <- Positions] ++ [Name || {_, Name} <- referred(Tree, Bytes)])].

is_long(Name) -> byte_size(atom_to_binary(Name)) > 255.

message(Title, {Bytes, Tree}, Positions) ->
    {Cells, Begun} = cells(Tree, 0, 0),
    Names = [[case Age of new -> "+"; old -> "" end, io_lib:format("~0p", [Name])] || {Age, Name, _} <- Positions],
    {io_lib:format("message ~b ~b ~s", [?LIMIT, ?WORDS, hex(Bytes)]),
        io_lib:format("answer=0 offset=0 extra=0 begun=~b deepest=~b path= cells=~s kept=~b",
            [Begun, deepest(Tree), lists:join(";", [io_lib:format("~b,~b,~b,~b,~b", Cell) || Cell <- Cells]), ?WORDS - 5 * Begun]),
        io_lib:format("~s\t~s\t~0p", [Title, lists:join(" ", Names), element(4, Tree)])}.

asked(Positions) ->
    [begin
        Text = atom_to_binary(Name),
        {io_lib:format("position ~b", [I]), io_lib:format("answer=0 place=~b length=~b name=~s", [Slot * 256 + 1, byte_size(Text), hex(Text)]), ""}
    end || {I, {_, Name, Slot}} <- numbered(Positions), not is_long(Name)].

hex(<<>>) -> "-";
hex(Bytes) -> [io_lib:format("~2.16.0b", [Byte]) || <<Byte>> <= Bytes].

%% Tag, start, end, parent and size of each term, in order
cells({Tag, From, To, _, Children}, Parent, Own) ->
    {Below, Next} = lists:mapfoldl(fun(Child, Number) -> cells(Child, Own, Number) end, Own + 1, Children),
    {[[Tag, From, To, Parent, Next - Own] | lists:append(Below)], Next}.

deepest({_, _, _, _, Children}) -> 1 + lists:max([0 | [deepest(Child) || Child <- Children]]).

%% What there is, in a few lines.

tell(Heard) ->
    [io:format("~s ~s: ~b messages, ~b of them with nothing behind the control message~n",
        [Age, Way, length(Messages), length([one || {{_}, _, _} <- Messages])]) || {Age, Way, Messages} <- Heard],
    Stored = [Message || {_, _, Messages} <- Heard, Message <- Messages, stored(Message) =/= []],
    Inputs = [Input || Message <- Stored, {_, Input} <- stored(Message)],
    Trees = [Tree || {_, Tree} <- Inputs],
    io:format("~b inputs of ~b messages, ~b of them different, ~b as they were sent~n", [length(Inputs), length(Stored),
        length(lists:usort([Bytes || {Bytes, _} <- Inputs])), length([one || {{_}, _, _} <- Stored])]),
    io:format("messages by count of references: ~w~n", [counts([length(Positions) || {_, _, Positions} <- Stored])]),
    io:format("~b messages have an odd count, ~b new and old references both, ~b lengths of two bytes~n", [
        length([odd || {_, _, Positions} <- Stored, length(Positions) rem 2 =:= 1]),
        length([both || {_, _, Positions} <- Stored, length(lists:ukeysort(1, Positions)) =:= 2]),
        length([long || {_, _, Positions} <- Stored, lists:any(fun is_long/1, [Name || {_, Name, _} <- Positions])])]),
    io:format("references: ~w~n", [counts([Age || {_, _, Positions} <- Stored, {Age, _, _} <- Positions])]),
    io:format("control messages: ~w~n", [counts([element(1, element(1, Said)) || {Said, _, _} <- Stored])]),
    io:format("82 as: ~w~n", [counts(lists:append([places(root, Tree) || Tree <- Trees]))]),
    io:format("terms by tag: ~w~n", [counts(lists:append([tags(Tree) || Tree <- Trees]))]).

counts(List) -> [{One, length([Same || Same <- List, Same =:= One])} || One <- lists:usort(List)].

tags({Tag, _, _, _, Children}) -> [Tag | lists:append([tags(Child) || Child <- Children])].

%% Where 82 stands
places(Place, {82, _, _, _, _}) -> [Place];
places(_, {Tag, _, _, _, Children}) ->
    Last = length(Children) - 1,
    lists:append([places(place(Tag, I, Last), Child) || {I, Child} <- numbered(Children)]).

place(104, _, _) -> tuple_element;
place(108, Last, Last) -> tail;
place(108, _, _) -> list_element;
place(116, I, _) -> element(I rem 2 + 1, {key, value});
place(112, I, _) when I > 3 -> free;
place(113, 1, _) -> function_of_113;
place(Tag, _, _) -> {atom_of, Tag}.
