%% Two real nodes that talk, and what they said, written as request lines of docs/REQUESTS.md. lists/nodes compiles and starts this:
%% answer() on the node that is called, call() on the node that calls. The calling node reaches the other through a proxy of its own
%% on loopback, which keeps every byte of both directions. The environment's NODES_DIR is the folder that the two share.
%% There is no epmd: this module stands in for it on both nodes (-epmd_module).
-module(nodes).
-export([answer/0, call/0]).
-export([start_link/0, listen_port_please/2, register_node/3, address_please/3, names/1]).
-export([play/1, ear/0, leave/1]).

-define(LOOPBACK, {127, 0, 0, 1}).
%% So many bytes are kept of a message; of a header never less than all. What a header or a fragment is answered doesn't depend on the body
%% behind it.
-define(KEPT, 1000).
-define(KEPT_OF_FRAGMENT, 60).
%% OTP takes this many places of the cache, so that atoms whose numbers differ by it push each other out.
-define(PLACES, 2039).

%% In epmd's place: a node keeps its own port, which the answering one writes into a file later on; where the answering one is asked for,
%% the port is the proxy's.

start_link() -> ignore.

listen_port_please(_Name, _Host) -> {ok, 0}.

register_node(_Name, Port, _Family) ->
    persistent_term:put(own, Port),
    {ok, 1}.

address_please("answering", _Host, _Family) -> {ok, ?LOOPBACK, persistent_term:get(proxy), 6};
address_please(_Name, _Host, _Family) -> {error, nxdomain}.

names(_Host) -> {error, address}.

path(File) -> filename:join(os:getenv("NODES_DIR"), File).

write(File, Bytes) ->
    ok = file:write_file(path(["new.", File]), Bytes),
    file:rename(path(["new.", File]), path(File)).

%% The two nodes. Neither outlives two minutes.

answer() ->
    begin_node(),
    ok = net_kernel:monitor_nodes(true),
    ok = write("port", integer_to_binary(persistent_term:get(own))),
    receive {nodeup, _} -> ok end,
    receive {nodedown, _} -> halt(0) end.

call() ->
    begin_node(),
    Node = 'answering@127.0.0.1',
    open_proxy(other_port(600)),
    true = net_kernel:connect_node(Node),
    play(Node),
    ok = rpc:call(Node, ?MODULE, play, [node()]),
    {ok, Version} = file:read_file(filename:join([code:root_dir(), "releases", erlang:system_info(otp_release), "OTP_VERSION"])),
    io:format("OTP ~s", [Version]),
    ok = write("requests", [requests("there", stream(there)), requests("back", stream(back))]),
    halt(0).

begin_node() ->
    {ok, _} = timer:apply_after(120000, erlang, halt, [1]),
    register(ear, spawn(fun ear/0)).

ear() ->
    receive
        stop -> ok;
        {die, Reason} -> exit(Reason);
        {Ref, From} when is_reference(Ref) -> From ! Ref, ear();
        _ -> ear()
    end.

other_port(0) -> exit("the other node doesn't start");
other_port(Tries) ->
    case file:read_file(path("port")) of
        {ok, Port} -> binary_to_integer(Port);
        {error, _} -> timer:sleep(100), other_port(Tries - 1)
    end.

%% The proxy: two processes that keep and pass on.

open_proxy(Port) ->
    {ok, Listening} = gen_tcp:listen(0, [binary, {active, false}, {ip, ?LOOPBACK}]),
    {ok, Own} = inet:port(Listening),
    persistent_term:put(proxy, Own),
    spawn(fun() ->
        {ok, Caller} = gen_tcp:accept(Listening),
        {ok, Other} = gen_tcp:connect(?LOOPBACK, Port, [binary, {active, false}, {nodelay, true}]),
        spawn(fun() -> register(back, self()), pass(Other, Caller, []) end),
        register(there, self()),
        pass(Caller, Other, [])
    end).

pass(From, To, Kept) ->
    receive
        {stream, Asker} -> Asker ! {stream, self(), iolist_to_binary(lists:reverse(Kept))}
    after 0 -> ok
    end,
    case gen_tcp:recv(From, 0, 50) of
        {ok, Bytes} -> ok = gen_tcp:send(To, Bytes), pass(From, To, [Bytes | Kept]);
        {error, timeout} -> pass(From, To, Kept)
    end.

stream(Name) ->
    Pid = whereis(Name),
    Pid ! {stream, self()},
    receive {stream, Pid, Bytes} -> Bytes end.

%% What is said. Each node says the same to the other, over its own atoms.

play(Node) ->
    Ear = {ear, Node},
    Far = spawn(Node, ?MODULE, ear, []),
    Made = list_to_tuple([made(I) || I <- lists:seq(0, 4095)]),
    Name = fun(I) -> element(I + 1, Made) end,
    everyday(Node),
    %% few names, new and old ones mixed, in odd and even counts
    [Ear ! [Name(I * I + J) || J <- lists:seq(1, I)] || I <- lists:seq(0, 9)],
    %% single names from all over the cache, then all of them as old ones; a message to a name refers to one atom more than one to a process
    [begin Far ! Name(I), Ear ! Name(I + 60) end || I <- lists:seq(0, 1900, 271)],
    Far ! [Name(I) || I <- lists:seq(0, 1900, 271)],
    Ear ! [Name(I) || I <- lists:seq(0, 1900, 271)],
    %% names that push each other out, alone and in one message
    [Far ! Name(I) || I <- [7, 7 + ?PLACES, 7, 7 + 2 * ?PLACES]],
    Far ! {Name(9), Name(9 + ?PLACES), Name(9 + 2 * ?PLACES)},
    Ear ! {Name(9 + ?PLACES), Name(9)},
    %% many names; the last message has more than a header can refer to
    Ranges = [{1000, 1130}, {1131, 1260}, {1000, 1099}, {1000, 1249}, {1000, 1300}],
    [Ear ! [Name(I) || I <- lists:seq(From, To)] || {From, To} <- Ranges],
    foreign(Far),
    long(Far, Name),
    fragments(Node, Far, Name),
    Far ! stop,
    ok.

%% A name of three characters that no module has.
made(I) -> list_to_atom([$Q, letter(I div 64), letter(I rem 64)]).

letter(I) -> lists:nth(I + 1, "0123456789abcdefghijklmnopqrstuvwxyzABCDEFGHIJKLMNOPQRSTUVWXYZ-_").

%% What nodes say anyway: calls, links, monitors, processes begun elsewhere, exits, global's names.
everyday(Node) ->
    pong = net_adm:ping(Node),
    Node = rpc:call(Node, erlang, node, []),
    {badrpc, _} = rpc:call(Node, no_module, no_function, [no_argument]),
    [1, 2, 3] = erpc:call(Node, lists, seq, [1, 3]),
    _ = rpc:call(Node, application, which_applications, []),
    _ = rpc:call(Node, erlang, memory, []),
    Far = spawn(Node, ?MODULE, ear, []),
    Second = spawn(Node, ?MODULE, ear, []),
    group_leader(Second, Far),
    link(Far),
    unlink(Far),
    Monitor = monitor(process, Far),
    demonitor(Monitor),
    Alias = alias(),
    Far ! {make_ref(), Alias},
    unalias(Alias),
    exit(Second, kill),
    {Third, Down} = spawn_monitor(Node, ?MODULE, ear, []),
    Third ! {die, {shutdown, {"why", 1.5, <<1, 2, 3:4>>, #{key => value}, fun lists:map/2}}},
    receive {'DOWN', Down, _, _, _} -> ok end,
    Far ! stop,
    yes = global:register_name({name, node()}, self()),
    _ = global:unregister_name({name, node()}),
    ok.

%% Names of other letters than ASCII's, of every length in UTF-8, and the empty name.
foreign(Far) ->
    Texts = ["", [233], [1078, 1091, 1082], [20320, 22909], [128013], [1, 127, 128, 16#7ff, 16#800],
        [16#d7ff, 16#e000, 16#ffff, 16#10000, 16#10ffff]],
    [Far ! list_to_atom(Text) || Text <- Texts],
    Far ! [list_to_atom(Text) || Text <- Texts].

%% Names about the most that a length of one byte can say. A header that refers to a longer one, new or old, has two bytes for each length.
long(Far, Name) ->
    [Far ! Atom || Atom <- [repeated(254, $s), repeated(255, $s), repeated(127, 233), repeated(85, 8364)]],
    Long = [{2400, repeated(128, 233)}, {2680, repeated(255, 233)}, {2960, repeated(255, 8364)}, {3240, repeated(255, 128013)}],
    [begin
        Far ! Atom,
        Far ! {Atom, Name(I)},
        Far ! {Atom, Name(I + 1), Name(I + 400)},
        Far ! {Atom, Name(I + 1), Name(I + 550)}
    end || {I, Atom} <- Long],
    %% new and long, between other new names
    Far ! {Name(1701), repeated(200, 246), Name(1751)},
    Far ! {Name(1702), repeated(130, 252), Name(1752), Name(1753)}.

repeated(N, Character) -> list_to_atom(lists:duplicate(N, Character)).

%% Messages of over 64 KiB, which OTP sends in fragments.
fragments(Node, Far, Name) ->
    Far ! {Name(1800), <<0:(70000 * 8)>>},
    {ear, Node} ! {Name(1801), Name(1802), binary:copy(<<"fragment">>, 25000)},
    Far ! [{Name(I rem 40), I} || I <- lists:seq(1, 9000)],
    Far ! [repeated(255, 233), Name(1803), <<0:(66000 * 8)>>],
    %% two at once
    Senders = [spawn_monitor(fun() -> Far ! {Name(1804 + I), <<I:(200000 * 8)>>} end) || I <- [1, 2]],
    [receive {'DOWN', Monitor, _, _, _} -> ok end || {_, Monitor} <- Senders],
    %% an exit with a large reason, and one that comes back
    exit(spawn(Node, ?MODULE, ear, []), {big, <<0:(80000 * 8)>>}),
    {_, Down} = spawn_monitor(Node, ?MODULE, leave, [80000]),
    receive {'DOWN', Down, _, _, _} -> ok end.

leave(Size) -> exit({big, <<1:(Size * 8)>>}).

%% Request lines.

requests(Way, Stream) ->
    Messages = messages(after_handshake(Stream)),
    tell(Way, Messages),
    ["clear\n", lines(Messages, 1), "names\n"].

%% The handshake's messages have lengths of two bytes; its last is the reply to the challenge one way and the answer to it the other.
after_handshake(<<Length:16, Message:Length/binary, Rest/binary>>) ->
    case Message of
        <<First, _/binary>> when First =:= $r; First =:= $a -> Rest;
        _ -> after_handshake(Rest)
    end.

%% A message of no bytes says that the node lives.
messages(<<0:32, Rest/binary>>) -> messages(Rest);
messages(<<Length:32, Message:Length/binary, Rest/binary>>) -> [Message | messages(Rest)];
messages(_) -> [].

%% A first fragment's own header changes the names too, and `first` doesn't. So that the names stay those of the connection, it is asked
%% again as a header: 131, 68 and what stands from the count on.
lines([], _) -> [];
lines([<<131, 68, _/binary>> = Message | Rest], I) ->
    [header_line(Message), names_after(I), lines(Rest, I + 1)];
lines([<<131, 69, _:16/binary, Header/binary>> = Message | Rest], I) ->
    [line("first", Message, ?KEPT_OF_FRAGMENT), header_line(<<131, 68, Header/binary>>), lines(Rest, I)];
lines([<<131, 70, _/binary>> = Message | Rest], I) ->
    [line("next", Message, ?KEPT_OF_FRAGMENT), lines(Rest, I)].

names_after(I) when I rem 20 =:= 0 -> "names\n";
names_after(_) -> "".

header_line(Message) ->
    {End, _} = header(Message),
    line("header", Message, max(?KEPT, End + 20)).

line(Word, Bytes, Most) ->
    Kept = binary:part(Bytes, 0, min(Most, byte_size(Bytes))),
    [Word, " ", [io_lib:format("~2.16.0b", [Byte]) || <<Byte>> <= Kept], "\n"].

%% Where a header ends by the chapter's own rules, and its references. A control message, a tuple, follows it.
header(<<131, 68, 0, 104, _/binary>>) -> {3, []};
header(<<131, 68, Count, Rest/binary>> = Message) ->
    Size = Count div 2 + 1,
    <<Flags:Size/binary, References/binary>> = Rest,
    [Last | Halves] = lists:reverse(lists:sublist(lists:append([[Low, High] || <<High:4, Low:4>> <= Flags]), Count + 1)),
    {Read, <<104, _/binary>> = Body} = references(lists:reverse(Halves), 8 + 8 * (Last band 1), References),
    {byte_size(Message) - byte_size(Body), Read}.

references([], _, Rest) -> {[], Rest};
references([Half | Halves], Bits, Bytes) ->
    {Reference, Rest} = reference(Half, Bits, Bytes),
    {References, Body} = references(Halves, Bits, Rest),
    {[Reference | References], Body}.

reference(Half, Bits, <<_Slot, Rest/binary>>) when Half >= 8 ->
    <<Length:Bits, _Name:Length/binary, Body/binary>> = Rest,
    {{new, Half - 8, Length}, Body};
reference(Half, _Bits, <<_Slot, Rest/binary>>) -> {{old, Half, 0}, Rest}.

tell(Way, Messages) ->
    Headers = [element(2, header(M)) || <<131, 68, _/binary>> = M <- Messages]
        ++ [element(2, header(<<131, 68, M/binary>>)) || <<131, 69, _:16/binary, M/binary>> <- Messages],
    References = lists:append(Headers),
    Count = fun(Test, List) -> length(lists:filter(Test, List)) end,
    io:format("~s: ~b headers, ~b of them of first fragments, and ~b further fragments~n", [Way, length(Headers),
        Count(fun(<<_, Tag, _/binary>>) -> Tag =:= 69 end, Messages), Count(fun(<<_, Tag, _/binary>>) -> Tag =:= 70 end, Messages)]),
    io:format("  ~b counts of references are odd, the largest is ~b~n",
        [Count(fun(Of) -> length(Of) rem 2 =:= 1 end, Headers), lists:max([length(Of) || Of <- Headers])]),
    io:format("  ~b references, ~b of them new, ~b to a new name of over 255 bytes~n", [length(References),
        Count(fun({Age, _, _}) -> Age =:= new end, References), Count(fun({_, _, Length}) -> Length > 255 end, References)]),
    io:format("  by segment: ~w~n", [[Count(fun({_, Segment, _}) -> Segment =:= S end, References) || S <- lists:seq(0, 7)]]).
