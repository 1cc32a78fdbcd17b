%% @doc Who is who: the servers of the other nodes, which of them are joined, and which nodes have left. Two servers greet each other
%% with a hello, which tells who its sender is, and as whom it knows the receiver. They are linked once each knows the other. Letters to a
%% node wait for its hello. What the program is to be told of nodes is given back as its lines.
-module(yaltzumin_peers).
-export([new/5, me/1, is_joined/1, members/1, told/1, set_state/3]).
-export([survey/2, beginning/2, asked/2, greet/2, greet_all/2, greeted/2, reconnect/1]).
-export([left/2, has_left/2, named/2, is_linked_from/2, refuse/2, parted/2]).
-export([heard/3, lost/2, torn/2, outlives/1]).
-export([carry/4, contact/1, is_synchronous/2]).

-export_type([peers/0, hello/0, parted/0, standing/0, loss/0, tear/0]).

-type text() :: yaltzumin_text:text().
-type stage() :: {Creation :: pos_integer(), alive | gone}.
%% How far the nodes of a name are known: to this creation, and whether that one is gone, too. A later one is greater.
-type batch() :: {Letters :: [binary()], [yaltzumin_table:known()]}.
-type standing() :: #{text := text() | none, joined := boolean(), members := [text()], told := [text()], stamp := non_neg_integer()}.
%% How a node stands: who it is, whether it is joined, its members, the last of each name that it was told has left, and a stamp that no step of
%% these is above.
-type hello() :: #{node := node(), pid := pid(), text := text(), joined := boolean(), members := [text()], told := [text()],
                   stamp := non_neg_integer(), knows := text() | none, answer := boolean()}.
-type parted() :: #{text := text(), joined := boolean(), members := [text()], left := text(), answer := boolean()}.
%% The sender was told that a node has left, which lives.
-type loss() :: #{gone := text(), from := text(), pid := pid(), joined := boolean(), members := [text()],
                  report := yaltzumin_losses:report(), known := [yaltzumin_table:known()], answer := boolean()}.
%% What the sender has of a node that is gone.
-type tear() :: #{by := text(), joined := boolean(), pid := pid(), via := pid()}.
%% A node, joined or not, lost the receiver, which the sender `via' sees.

-record(peer, {text :: text(), pid :: pid(), members :: [text()] | lone, linked :: boolean()}).
-record(peers, {world :: [node()],
                me :: text(),
                joined :: boolean(),
                members :: [text()],
                nodes = #{} :: #{node() => #peer{}},
                stages = #{} :: #{node() => stage()},
                %% The greatest stamp that this node was told of, but for those of letters that it had itself.
                stamp = 0 :: non_neg_integer(),
                held = #{} :: #{text() => [batch()]},
                losses = yaltzumin_losses:new() :: yaltzumin_losses:losses(),
                %% Who told of the loss of a node that this one sees, and isn't answered yet.
                unanswered = #{} :: #{text() => [pid()]},
                %% Of a node that is gone, the members that told of it, and whether they count this node as one.
                countings = #{} :: #{text() => [boolean()]}}).

-opaque peers() :: #peers{}.

%% So long are the servers of connected nodes waited for when this one starts, in milliseconds. Each answers, or its end is told; so this
%% is for one that hangs.
-define(SURVEY, 60000).

%% @doc Nobody is known but the node itself, of these nodes, with this text, which founds its cluster or is lone. These have left, of each name
%% the last, by steps with no greater stamps: a lone node is told all of it by its first line.
-spec new([node()], text(), Founds :: boolean(), [text()], Stamp :: non_neg_integer()) -> {iodata(), peers()}.
new(World, Me, Founds, Left, Stamp) ->
    {Lines, Peers} = depart_all(Left, #peers{world = World, me = Me, joined = Founds, members = [Me], stamp = Stamp}),
    case Founds orelse Left =:= [] of
        true -> {Lines, Peers};
        false -> {yaltzumin_line:behind(Stamp, Left), Peers}
    end.

%% @doc The text of this node.
-spec me(peers()) -> text().
me(#peers{me = Me}) -> Me.

%% @doc Whether this node is joined.
-spec is_joined(peers()) -> boolean().
is_joined(#peers{joined = Joined}) -> Joined.

%% @doc The members of this node, itself among them.
-spec members(peers()) -> [node()].
members(#peers{members = Members}) -> [yaltzumin_text:node_of(Member) || Member <- Members].

%% @doc The nodes that have left, as far as this one was told: the last of each name.
-spec told(peers()) -> [text()].
told(#peers{stages = Stages, losses = Losses}) ->
    Gone = [yaltzumin_text:of_node(Node, Last) || {Node, Stage} <- maps:to_list(Stages), Last <- [last_gone(Stage)], Last > 0],
    Dying = yaltzumin_losses:dying(Losses),
    %% Of a name that is dying a node before it may have left.
    Names = [yaltzumin_text:node_of(Node) || Node <- Dying],
    lists:sort(Dying ++ [It || It <- Gone, not lists:member(yaltzumin_text:node_of(It), Names)]).

%% A stamp that is no less than that of the last letter of any node that has left, as far as this one knows.
stamp(#peers{stamp = Stamp, losses = Losses}) -> max(Stamp, yaltzumin_losses:stamp(Losses)).

last_gone({Creation, gone}) -> Creation;
last_gone({Creation, alive}) -> Creation - 1.

%% @doc The program tells whether the node is joined, and with whom.
-spec set_state(boolean(), [text()], peers()) -> peers().
set_state(Joined, Members, Peers) ->
    Peers#peers{joined = Joined, members = Members}.

%% ------------------------------------------------------------------------------------------------------------ the start

%% @doc Asks the servers of all nodes that are connected how they stand: which creation this node is to be, who has left, of each name the last,
%% and a stamp that is no less than those of their steps. Of two sides that parted, the one counts that others come back to. That a node
%% has left which answers isn't believed, but those before it have.
-spec survey([node()], Connects :: boolean()) ->
          {Creation :: pos_integer(), AnyJoined :: boolean(), Left :: [text()], Stamp :: non_neg_integer()}.
survey(World, Connects) ->
    Others = World -- [node()],
    _ = Connects andalso connect(Others),
    beginning(Others, ask_all([Node || Node <- Others, lists:member(Node, nodes())])).

%% @doc The same, from how those stand that answered.
-spec beginning(Others :: [node()], [standing()]) ->
          {Creation :: pos_integer(), AnyJoined :: boolean(), Left :: [text()], Stamp :: non_neg_integer()}.
beginning(Others, Standings) ->
    Creation = lists:max([0 | [creation(Text) || #{told := Told} <- Standings, Text <- Told]]) + 1,
    Present = [yaltzumin_text:node_parts(Text) || #{text := Text} <- Standings, Text =/= none],
    Joined = lists:sort([{rank(Members), Told} || #{joined := true, members := Members, told := Told} <- Standings]),
    Gone = [yaltzumin_text:node_parts(Text) || Text <- told_by(Joined, Standings)],
    Last = [{node(), Creation - 1} | [{Node, last_left(Node, Present, Gone)} || Node <- Others]],
    Stamp = lists:max([0 | [It || #{stamp := It} <- Standings]]),
    {Creation, Joined =/= [], [yaltzumin_text:of_node(Node, It) || {Node, It} <- Last, It > 0], Stamp}.

told_by([{_, Told} | _], _) -> Told;
told_by([], Standings) -> lists:append([Told || #{told := Told} <- Standings]).

%% The creation of the last node of a name that has left, or 0: the one before the node that answers, or the last one that is told to have left.
last_left(Node, Present, Gone) ->
    case lists:keyfind(Node, 1, Present) of
        {_, Creation} -> Creation - 1;
        false -> lists:max([0 | [Creation || {It, Creation} <- Gone, It =:= Node]])
    end.

%% Connects to these nodes. Each try ends, after seven seconds where Erlang isn't told otherwise.
connect(Nodes) ->
    Refs = [element(2, spawn_monitor(net_kernel, connect_node, [Node])) || Node <- Nodes],
    [receive {'DOWN', Ref, process, _, _} -> ok end || Ref <- Refs].

%% The creation of this node that a text tells, or none.
creation(Text) ->
    case yaltzumin_text:node_parts(Text) of
        {Node, Creation} when Node =:= node() -> Creation;
        _ -> 0
    end.

ask_all(Nodes) ->
    gather(lists:foldl(fun ask/2, #{}, Nodes), [], erlang:monotonic_time(millisecond) + ?SURVEY).

ask(Node, Refs) ->
    Ref = monitor(process, {yaltzumin_server, Node}),
    _ = erlang:send({yaltzumin_server, Node}, {who, self(), Ref, node()}, [noconnect]),
    Refs#{Ref => Node}.

gather(Refs, Standings, _) when map_size(Refs) =:= 0 ->
    Standings;
gather(Refs, Standings, Until) ->
    receive
        {who, From, Ref, _Node} ->
            %% It starts, too: this one knows nothing yet.
            From ! {stands, Ref, #{text => none, joined => false, members => [], told => [], stamp => 0}},
            gather(Refs, Standings, Until);
        {stands, Ref, Standing} when is_map_key(Ref, Refs) ->
            demonitor(Ref, [flush]),
            gather(maps:remove(Ref, Refs), [Standing | Standings], Until);
        {'DOWN', Ref, process, _, _} when is_map_key(Ref, Refs) ->
            gather(maps:remove(Ref, Refs), Standings, Until)
    after max(0, Until - erlang:monotonic_time(millisecond)) ->
        [demonitor(Ref, [flush]) || Ref <- maps:keys(Refs)],
        Standings
    end.

%% @doc A server that starts at this node asks how this one stands: whoever was there before has left.
-spec asked(node(), peers()) -> {standing(), iodata(), peers()}.
asked(Node, Peers0) ->
    {Lines, Peers} = gone(Node, Peers0),
    #peers{me = Me, joined = Joined, members = Members} = Peers,
    {#{text => Me, joined => Joined, members => Members, told => told(Peers), stamp => stamp(Peers)}, Lines, Peers}.

%% ------------------------------------------------------------------------------------------------------------ hellos

%% @doc Greets the servers of all nodes that are connected, and has them answer, or not.
-spec greet_all(Answer :: boolean(), peers()) -> ok.
greet_all(Answer, #peers{world = World} = Peers) ->
    lists:foreach(fun(Node) -> send_hello(Node, Answer, Peers) end, [Node || Node <- World, lists:member(Node, nodes())]).

%% @doc Greets the server of a node that was connected.
-spec greet(node(), peers()) -> ok.
greet(Node, #peers{world = World} = Peers) ->
    lists:foreach(fun(It) -> send_hello(It, false, Peers) end, [Node || lists:member(Node, World)]).

%% @doc Tries to connect to all nodes that aren't connected.
-spec reconnect(peers()) -> ok.
reconnect(#peers{world = World}) ->
    link_to((World -- [node()]) -- nodes()).

link_to(Nodes) ->
    lists:foreach(fun(Node) -> spawn(net_kernel, connect_node, [Node]) end, Nodes).

send_hello(Node, Answer, #peers{me = Me, joined = Joined, members = Members} = Peers) ->
    Hello = #{node => node(), pid => self(), text => Me, joined => Joined, members => Members, told => told(Peers), stamp => stamp(Peers),
              knows => known_as(Node, Peers), answer => Answer},
    _ = erlang:send({yaltzumin_server, Node}, {hello, Hello}, [noconnect]),
    ok.

known_as(Node, #peers{nodes = Nodes}) ->
    case Nodes of
        #{Node := #peer{text = Text}} -> Text;
        _ -> none
    end.

%% @doc The server of another node says hello.
-spec greeted(hello(), peers()) -> {iodata(), peers()}.
greeted(#{text := Text, stamp := Stamp} = Hello, Peers0) ->
    Peers = Peers0#peers{stamp = max(Stamp, Peers0#peers.stamp)},
    case has_left(Text, Peers) of
        true -> refuse(Text, Peers), {[], Peers};
        false -> greeted_by_next(Hello, Peers)
    end.

%% Whether a node of this name is gone, and it isn't known yet what others have of it. The next one is greeted when that is.
is_awaited(Node, #peers{losses = Losses}) ->
    lists:any(fun(Dying) -> yaltzumin_text:node_of(Dying) =:= Node end, yaltzumin_losses:dying(Losses)).

%% Whoever had the node before has left. Where that was under the same text, so has the one that says hello.
greeted_by_next(#{node := Node, pid := Pid, text := Text} = Hello, Peers0) ->
    {Lines, Peers} = case Peers0#peers.nodes of
        #{Node := #peer{pid = Other}} when Other =/= Pid -> gone(Node, Peers0);
        _ -> {[], Peers0}
    end,
    case has_left(Text, Peers) orelse are_strangers(Hello, Peers) of
        true ->
            refuse(Text, Peers),
            {Lines, Peers};
        false ->
            {More, Next} = welcomed(Hello, is_of_a_lesser_side(Hello, Peers) orelse is_awaited(Node, Peers), Peers),
            {[Lines, More], Next}
    end.

%% Whether both are joined, but not with each other.
are_strangers(#{text := Text, joined := true, members := Members}, #peers{joined = true, me = Me, members = Own}) ->
    not lists:member(Text, Own) andalso not lists:member(Me, Members);
are_strangers(_, _) ->
    false.

%% Whether this node is lone, and knows of another cluster that it would rather join.
is_of_a_lesser_side(#{joined := true, members := Members}, #peers{joined = false, nodes = Nodes}) ->
    lists:any(fun(#peer{members = Others}) -> Others =/= lone andalso disjoint(Others, Members) andalso rank(Others) < rank(Members) end,
              maps:values(Nodes));
is_of_a_lesser_side(_, _) ->
    false.

disjoint(Nodes, Others) ->
    Nodes -- Others =:= Nodes.

%% Of two clusters the lesser rank has the one with more members, or else the one with the least node.
rank(Members) ->
    {-length(Members), lists:min(Members)}.

welcomed(_, true, Peers) ->
    {[], Peers};
welcomed(#{node := Node, text := Text, told := Told, knows := Knows} = Hello, false, #peers{me = Me} = Peers0) ->
    {Lines, #peers{nodes = Nodes} = Peers1} = met(Hello, Peers0),
    Peers2 = Peers1#peers{nodes = Nodes#{Node := seen(Hello, Me, maps:get(Node, Nodes))}},
    _ = (maps:get(answer, Hello) orelse Knows =/= Me) andalso send_hello(Node, false, Peers2),
    {More, Peers} = depart_all(believed(Told, Peers2), flushed(Text, maps:get(Node, Peers2#peers.nodes), Peers2)),
    {[Lines, More], Peers}.

%% The peer of a hello is watched from now on, if it wasn't, and the program knows it.
met(#{node := Node, text := Text, pid := Pid}, #peers{nodes = Nodes} = Peers0) ->
    case Nodes of
        #{Node := #peer{pid = Pid}} ->
            {[], Peers0};
        _ ->
            _ = monitor(process, Pid),
            {_, Creation} = yaltzumin_text:node_parts(Text),
            {Lines, Peers} = advanced(Node, {Creation, alive}, Peers0),
            {Lines, Peers#peers{nodes = Nodes#{Node => #peer{text = Text, pid = Pid, members = lone, linked = false}}}}
    end.

%% What a hello tells of its sender.
seen(#{joined := Joined, members := Members, knows := Knows}, Me, #peer{linked = Linked} = Peer) ->
    Peer#peer{members = case Joined of true -> Members; false -> lone end, linked = Linked orelse Knows =:= Me}.

%% Another may have lost a node that this one sees: those two settle that. Or one of which this one waits for what others have.
believed(Told, #peers{nodes = Nodes, losses = Losses}) ->
    (Told -- [Text || #peer{text = Text} <- maps:values(Nodes)]) -- yaltzumin_losses:dying(Losses).

%% ------------------------------------------------------------------------------------------------------------ departures

%% @doc Tells a node that this one was told that it has left.
-spec refuse(text(), peers()) -> ok.
refuse(Text, Peers) ->
    refuse(Text, true, Peers).

refuse(Text, Answer, #peers{me = Me, joined = Joined, members = Members}) ->
    Parted = #{text => Me, joined => Joined, members => Members, left => Text, answer => Answer},
    _ = erlang:send({yaltzumin_server, yaltzumin_text:node_of(Text)}, {parted, Parted}, [noconnect]),
    ok.

%% @doc Another node was told that a node has left. If that is this one, both live on two sides that parted, and one of the sides starts
%% anew: that which isn't joined, or has the greater rank, or else the greater of the two nodes. Where that is the other's, it is told, as
%% it may not know.
-spec parted(parted(), peers()) -> stays | starts_anew.
parted(#{left := Me, text := Text, joined := Joined, members := Members, answer := Answer}, #peers{me = Me} = Peers) ->
    Theirs = {not Joined, rank(lists:usort([Text | Members])), Text},
    Ours = {not Peers#peers.joined, rank(lists:usort([Me | Peers#peers.members])), Me},
    case Ours > Theirs of
        true ->
            starts_anew;
        false ->
            _ = Answer andalso refuse(Text, false, Peers),
            stays
    end;
parted(_, _) ->
    stays.

%% @doc The server of another node is gone, and so its node, behind all letters of it that came.
-spec left(pid(), peers()) -> {iodata(), peers()}.
left(Pid, #peers{nodes = Nodes} = Peers) ->
    case [Node || {Node, #peer{pid = Server}} <- maps:to_list(Nodes), Server =:= Pid] of
        [Node] -> gone(Node, Peers);
        [] -> {[], Peers}
    end.

%% A node is gone without a word. All are told what came of it here, and so are those that waited for that, and what came to others is
%% waited for. A lone node is told of no writes, so it waits for nothing.
gone(Node, #peers{nodes = Nodes, losses = Losses, unanswered = Unanswered} = Peers0) ->
    case maps:take(Node, Nodes) of
        {#peer{text = Text}, Rest} ->
            Peers = Peers0#peers{nodes = Rest, unanswered = maps:remove(Text, Unanswered)},
            Others = maps:values(Rest),
            [send_loss(Pid, Text, true, Peers) || #peer{pid = Pid} <- Others],
            [send_loss(Pid, Text, false, Peers) || Pid <- maps:get(Text, Unanswered, [])],
            Waits = case Peers#peers.joined of true -> [It || #peer{text = It} <- Others]; false -> [] end,
            concluded(Peers#peers{losses = yaltzumin_losses:begins(Text, Waits, yaltzumin_losses:without(Text, Losses))});
        error ->
            {[], Peers0}
    end.

send_loss(Pid, Gone, Answer, #peers{me = Me, joined = Joined, members = Members, losses = Losses}) ->
    Report = yaltzumin_losses:report(Gone, Losses),
    Known = case Report of none -> []; {_, Texts} -> lists:append([yaltzumin_table:known(<<"0 0 ", Text/binary>>) || Text <- Texts]) end,
    Loss = #{gone => Gone, from => Me, pid => self(), joined => Joined, members => Members, report => Report, known => Known, answer => Answer},
    _ = erlang:send(Pid, {lost, Loss}, [noconnect]),
    ok.

%% Of some nodes that are gone it is known what others have: the program is told that first, and then that they are gone.
concluded(#peers{losses = Losses} = Peers) ->
    {Over, Rest} = yaltzumin_losses:over(Losses),
    lists:mapfoldl(fun concluded/2, Peers#peers{losses = Rest}, Over).

concluded({Gone, Letters}, #peers{joined = Joined, countings = Countings} = Peers0) ->
    _ = Joined andalso Letters =/= [] andalso logger:notice("yaltzumin: ~ts died in a write that others had got", [Gone]),
    {Lines, Peers} = departed(Gone, Peers0#peers{countings = maps:remove(Gone, Countings)}),
    %% Of the members that are left none was told that this node is one: who admitted it died before it told another.
    Counted = maps:get(Gone, Countings, []),
    _ = Joined andalso Counted =/= [] andalso not lists:member(true, Counted) andalso (self() ! {starts_anew, {admission_lost, Gone}}),
    %% The next one of its name may have said hello meanwhile.
    Node = yaltzumin_text:node_of(Gone),
    _ = lists:member(Node, nodes()) andalso send_hello(Node, true, Peers),
    {[[yaltzumin_line:letter(Gone, Letter) || Letter <- Letters, Joined], Lines], Peers}.

%% @doc A letter of a node came.
-spec heard(text(), Letter :: binary(), peers()) -> peers().
heard(From, Letter, #peers{losses = Losses} = Peers) ->
    Peers#peers{losses = yaltzumin_losses:heard(From, Letter, Losses)}.

%% @doc Another node tells what it has of one that is gone. Where this one sees that, it asks it whether it lives: if it is dead that will be
%% seen here, too, and the other is answered then. A lone node has nothing to tell.
-spec lost(loss(), peers()) -> {iodata(), peers()}.
lost(#{gone := Gone, from := From, pid := Pid, joined := Theirs, answer := Answer} = Loss, #peers{joined = Joined} = Peers0) ->
    Peers = reported(Loss, Peers0),
    case maps:get(yaltzumin_text:node_of(Gone), Peers#peers.nodes, none) of
        #peer{text = Gone, pid = Server} when Joined ->
            _ = erlang:send(Server, {torn, #{by => From, joined => Theirs, pid => Pid, via => self()}}, [noconnect]),
            {[], unanswered(Gone, [Pid || Answer], Peers)};
        _ ->
            _ = Answer andalso send_loss(Pid, Gone, false, Peers),
            concluded(Peers)
    end.

%% It is of use as long as the program isn't told that the node is gone.
reported(#{gone := Gone, from := From, report := Report} = Loss, #peers{nodes = Nodes, losses = Losses} = Peers) ->
    IsSeen = lists:any(fun(#peer{text = Text}) -> Text =:= Gone end, maps:values(Nodes)),
    case IsSeen orelse yaltzumin_losses:is_dying(Gone, Losses) of
        true -> counted(Loss, Peers#peers{losses = yaltzumin_losses:reported(Gone, From, Report, Losses)});
        false -> Peers
    end.

counted(#{joined := false}, Peers) ->
    Peers;
counted(#{gone := Gone, from := From, members := Theirs, report := Report}, #peers{me = Me, members = Members, countings = Countings} = Peers) ->
    Counts = lists:member(Me, Theirs) orelse yaltzumin_losses:admits(Me, Report),
    Peers#peers{countings = Countings#{Gone => [Counts || lists:member(From, Members)] ++ maps:get(Gone, Countings, [])}}.

unanswered(Gone, Pids, #peers{unanswered = Unanswered} = Peers) ->
    Peers#peers{unanswered = Unanswered#{Gone => Pids ++ maps:get(Gone, Unanswered, [])}}.

%% @doc Another node lost this one, and a third sees both. As neither is to go on beside the other, one starts anew: that which isn't joined, or
%% else the greater. Where that is the other, the third tells it so.
-spec torn(tear(), peers()) -> stays | starts_anew.
torn(#{by := By, joined := Theirs, pid := Pid, via := Via}, #peers{me = Me, joined = Joined}) ->
    case {not Joined, Me} > {not Theirs, By} of
        true -> starts_anew;
        false -> _ = erlang:send(Via, {outlives, #{by => Me, joined => Joined, pid => Pid, via => self()}}, [noconnect]), stays
    end.

%% @doc A node lives that another one lost: that one is told.
-spec outlives(tear()) -> ok.
outlives(#{pid := Pid} = Tear) ->
    _ = erlang:send(Pid, {torn, Tear#{via := self()}}, [noconnect]),
    ok.

depart_all(Texts, Peers) ->
    lists:mapfoldl(fun departed/2, Peers, Texts).

%% A node has left, and so have all before it of its name.
departed(Me, #peers{me = Me} = Peers) ->
    {[], Peers};
departed(Text, Peers0) ->
    {Node, Creation} = yaltzumin_text:node_parts(Text),
    {Lines, #peers{held = Held} = Peers} = advanced(Node, {Creation, gone}, Peers0),
    {Lines, Peers#peers{held = maps:filter(fun(To, _) -> not has_left(To, Peers) end, Held)}}.

%% The nodes of a name are known so far now, and what the program is told for that. Of those of its own name it knows.
advanced(Node, Stage, #peers{stages = Stages} = Peers) ->
    case stage(Node, Peers) of
        Known when Known >= Stage -> {[], Peers};
        Known -> {[steps(Node, Known, Stage) || Node =/= node()], Peers#peers{stages = Stages#{Node => Stage}}}
    end.

%% The first node of each name is known from the start.
stage(Node, #peers{stages = Stages}) ->
    maps:get(Node, Stages, {1, alive}).

steps(_, Stage, Stage) ->
    [];
steps(Node, {Creation, alive}, Stage) ->
    [yaltzumin_line:down(yaltzumin_text:of_node(Node, Creation)) | steps(Node, {Creation, gone}, Stage)];
steps(Node, {Creation, gone}, Stage) ->
    Next = Creation + 1,
    [yaltzumin_line:started(yaltzumin_text:of_node(Node, Next)) | steps(Node, {Next, alive}, Stage)].

%% @doc A letter names these nodes, so they have started, and those before them have left: the program is told so before it is given the letter.
%% Of a node that this one sees still, or whose loss isn't settled, that is told in its turn.
-spec named([text()], peers()) -> {iodata(), peers()}.
named(Texts, Peers) ->
    lists:mapfoldl(fun named_one/2, Peers, Texts).

named_one(Text, #peers{nodes = Nodes} = Peers) ->
    {Node, Creation} = yaltzumin_text:node_parts(Text),
    case is_map_key(Node, Nodes) orelse is_awaited(Node, Peers) of
        true -> {[], Peers};
        false -> advanced(Node, {Creation, alive}, Peers)
    end.

%% @doc Whether this node was told that one has left.
-spec has_left(text(), peers()) -> boolean().
has_left(Text, Peers) ->
    has_left(Text, yaltzumin_text:node_parts(Text), Peers).

has_left(Text, {Node, Creation}, #peers{losses = Losses} = Peers) ->
    yaltzumin_losses:is_dying(Text, Losses) orelse stage(Node, Peers) >= {Creation, gone}.

%% @doc Whether letters of a node may come: its server has said hello, and wasn't lost.
-spec is_linked_from(text(), peers()) -> boolean().
is_linked_from(Text, Peers) ->
    {Node, _} = Parts = yaltzumin_text:node_parts(Text),
    known_as(Node, Peers) =:= Text andalso not has_left(Text, Parts, Peers).

%% ------------------------------------------------------------------------------------------------------------ letters and joins

%% @doc Sends letters to a node, with what their texts stand for. Until its server has said hello they wait.
-spec carry(text(), [binary()], [yaltzumin_table:known()], peers()) -> peers().
carry(To, Letters, Known, #peers{nodes = Nodes, held = Held} = Peers) ->
    Node = yaltzumin_text:node_of(To),
    case Nodes of
        #{Node := #peer{text = To, pid = Pid}} ->
            send_letters(Pid, Letters, Known, Peers),
            Peers;
        _ ->
            case has_left(To, Peers) of
                true ->
                    Peers;
                false ->
                    link_to([Node]),
                    Peers#peers{held = maps:update_with(To, fun(Batches) -> [{Letters, Known} | Batches] end, [{Letters, Known}], Held)}
            end
    end.

send_letters(Pid, Letters, Known, #peers{me = Me}) ->
    _ = erlang:send(Pid, {letters, Me, Letters, Known}, [noconnect]),
    ok.

flushed(Text, #peer{pid = Pid}, #peers{held = Held} = Peers) ->
    [send_letters(Pid, Letters, Known, Peers) || {Letters, Known} <- lists:reverse(maps:get(Text, Held, []))],
    Peers#peers{held = maps:remove(Text, Held)}.

%% @doc Whom this node, which has asked nobody, is to ask for its join: a joined node, once this one is linked with each of its members.
%% Else it connects to those that are missing. `starts_anew' where another counts this node as a member, which is lone: whoever admitted it
%% is gone, and its welcome was lost.
-spec contact(peers()) -> {join, text()} | missing | none | starts_anew.
contact(#peers{joined = true}) ->
    none;
contact(#peers{nodes = Nodes, me = Me} = Peers) ->
    Joined = [Peer || #peer{text = Text, members = Members} = Peer <- maps:values(Nodes), Members =/= lone, not has_left(Text, Peers)],
    case lists:any(fun(#peer{members = Members}) -> lists:member(Me, Members) end, Joined) of
        true -> starts_anew;
        false -> least_contact(lists:sort([{rank(Members), Text, Members} || #peer{text = Text, members = Members} <- Joined]), Peers)
    end.

least_contact([], _) ->
    none;
least_contact([{_, Text, Members} | _], #peers{nodes = Nodes}) ->
    Linked = [It || #peer{text = It, linked = true} <- maps:values(Nodes)],
    case lists:usort([Text | Members]) -- Linked of
        [] ->
            {join, Text};
        Missing ->
            link_to([yaltzumin_text:node_of(It) || It <- Missing] -- nodes()),
            missing
    end.

%% @doc Whether this node is joined, and these are members.
-spec is_synchronous([node()], peers()) -> boolean().
is_synchronous(Nodes, #peers{joined = Joined} = Peers) ->
    Joined andalso Nodes -- members(Peers) =:= [].
