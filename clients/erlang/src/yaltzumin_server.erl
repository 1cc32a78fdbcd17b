%% @doc The server of a node. It owns the program of the node, hands on the letters between that and the servers of other nodes, and
%% answers the calls of {@link yaltzumin}. One server runs one program: where that ends, so does the server, and its supervisor starts
%% the next.
-module(yaltzumin_server).
-behaviour(gen_server).
-export([start_link/1]).
-export([init/1, handle_call/3, handle_cast/2, handle_info/2, terminate/2, format_status/1]).

-export_type([options/0, request/0, info/0]).

-type text() :: yaltzumin_text:text().
-type options() :: #{program := file:filename(), nodes := [node()], founder := node(), connect := boolean()}.
-type owner() :: pid() | {pid(), text()}.
%% A process of this node, or one of another with its text there.
-type request() ::
    {register | re_register, text(), Name :: term(), owner(), Rule :: text()} |
    {unregister, text(), Name :: term()} |
    {set_lock, Resource :: text(), Requester :: text(), all | [node()], Retries :: text()} |
    {del_lock, Resource :: text(), Requester :: text(), all | [node()]} |
    {text_of, pid()} |
    {synchronize, [node()], timeout()} |
    info.
-type info() :: #{node := text(), joined := boolean(), members := [node()], left := [text()], calls := non_neg_integer(),
                  processes := non_neg_integer()}.

-record(state, {
    port :: port(),
    peers :: yaltzumin_peers:peers(),
    %% The beginning of a line that isn't whole yet.
    rest = <<>> :: binary(),
    %% The names of a whole table that is being shown.
    whole = none :: none | [{Name :: text(), Owner :: text()}],
    %% What goes to the program in this turn, and to other nodes.
    lines = [] :: iodata(),
    letters = #{} :: #{text() => {[binary()], [yaltzumin_table:known()]}},
    %% What is done once that is on its way, the last first.
    behind = [] :: [fun((#state{}) -> #state{})],
    %% What is done with the reply under each tag.
    tag = 1 :: yaltzumin_line:tag(),
    asked = #{} :: #{yaltzumin_line:tag() => then()},
    owners = yaltzumin_owners:new() :: yaltzumin_owners:owners(fun((text(), #state{}) -> #state{})),
    %% Name calls that wait: one at a time is with the program.
    names = queue:new() :: queue:queue({request(), gen_server:from()}),
    is_naming = false :: boolean(),
    %% Other nodes that asked for the lock of names not long ago, and whether this one gives way to them.
    rivals = #{} :: #{text() => pos_integer()},
    gives_way = none :: reference() | none,
    is_joining = false :: boolean(),
    is_looking = false :: boolean(),
    ticks = none :: reference() | none,
    synchronizing = [] :: [{[node()], Until :: integer() | infinity, gen_server:from()}],
    connects :: boolean(),
    has_left = false :: boolean()}).

-type then() :: fun((binary() | {error, binary()}, #state{}) -> #state{}).

-define(MOST_NODES, 8).
-define(ROOM, 16384).       % so many words has the heap at least
-define(OPENING, 60000).    % so long the program has for its first answer
-define(TICK, 1).           % between two ticks of a program that waits
-define(GIVING_WAY, 2).     % how long a name call waits for rivals at most
-define(RIVALRY, 8).        % for so many name calls of this node another that asked counts as a rival, unless a wait for rivals was in vain
-define(LOOKING, 100).      % until a node that couldn't join looks again
-define(AROUND, 5000).      % between two looks at who isn't connected
-define(SWEEPING, 60000).   % between two looks at what texts stand for
-define(SWEPT, 10000).      % how many of them are looked at each time
-define(LEAVING, 4000).     % how long the program has to leave in order

%% @doc Starts the server of this node.
-spec start_link(options()) -> {ok, pid()} | {error, term()}.
start_link(Options) ->
    gen_server:start_link({local, ?MODULE}, ?MODULE, Options, []).

%% ------------------------------------------------------------------------------------------------------------ the start

%% @private
init(Options) ->
    _ = process_flag(trap_exit, true),
    _ = process_flag(priority, high),
    _ = process_flag(message_queue_data, off_heap),
    %% Most that a turn makes is garbage behind it: with room for many turns little is left to be copied when it is collected.
    _ = process_flag(min_heap_size, ?ROOM),
    case fault(Options) of
        none -> opened(Options);
        Fault -> {stop, Fault}
    end.

%% What is wrong with the options, if anything is.
fault(#{nodes := World, founder := Founder}) ->
    Unfit = [Node || Node <- World, not yaltzumin_text:is_node(Node)],
    case lists:member(node(), World) of
        _ when Unfit =/= [] -> {not_short_names, Unfit};
        false -> {not_one_of, World};
        true when length(World) > ?MOST_NODES -> {more_than_eight, World};
        true -> case lists:member(Founder, World) of true -> none; false -> {founder_not_one_of, World} end
    end.

opened(#{nodes := World, founder := Founder, connect := Connects} = Options) ->
    Names = yaltzumin_table:own_names(),
    ok = yaltzumin_table:clear(),
    ok = net_kernel:monitor_nodes(true),
    {Creation, AnyJoined, Left, Stamp} = yaltzumin_peers:survey(World, Connects),
    Founds = node() =:= Founder andalso Creation =:= 1 andalso not AnyJoined,
    Me = yaltzumin_text:of_node(node(), Creation),
    {Begins, Peers} = yaltzumin_peers:new(World, Me, Founds, Left, Stamp),
    case open_program(Options, Me) of
        {ok, Port} ->
            State = #state{port = Port, peers = Peers, connects = Connects, lines = [[yaltzumin_line:founds() || Founds], Begins]},
            started(Names, State);
        {error, Why} ->
            {stop, Why}
    end.

%% The program is open once it answers its first question.
started(Names, State0) ->
    Opens = fun(_, S) -> S end,
    case first_answer(written(asks([<<"steps">>], Opens, State0))) of
        {ok, State1} ->
            State = lists:foldl(fun register_anew/2, State1, Names),
            yaltzumin_peers:greet_all(false, State#state.peers),
            erlang:send_after(?SWEEPING, self(), sweep),
            erlang:send_after(?AROUND, self(), around),
            {ok, turned(State)};
        {ended, Why} ->
            {stop, {program_ended, Why}}
    end.

first_answer(#state{asked = Asked} = State) when map_size(Asked) =:= 0 ->
    {ok, State};
first_answer(#state{port = Port} = State) ->
    receive
        {Port, {data, Data}} -> first_answer(printed(Data, State));
        {Port, {exit_status, Status}} -> {ended, Status};
        {'EXIT', Port, Why} -> {ended, Why}
    after ?OPENING ->
        {ended, no_answer}
    end.

open_program(#{program := Program, nodes := World}, Me) ->
    Nodes = lists:join($,, [atom_to_binary(Node) || Node <- World]),
    Arguments = ["node", Me, iolist_to_binary(Nodes)],
    Found = case filename:pathtype(Program) =:= relative andalso os:find_executable(Program) of
        false -> Program;
        Path -> Path
    end,
    try
        {ok, open_port({spawn_executable, Found}, [{args, Arguments}, binary, stream, use_stdio, exit_status])}
    catch
        error:Why -> {error, {Why, Found}}
    end.

%% A name of a process that outlived the server before this one.
register_anew({Name, Pid}, State) ->
    Text = yaltzumin_text:of_term(Name),
    yaltzumin_table:learn_term(Text, Name),
    with_owner(Pid, fun(Owner, S) -> asks([<<"register">>, Text, Owner, <<"exit">>], fun(_, S1) -> S1 end, S) end, State).

%% ------------------------------------------------------------------------------------------------------------ calls

%% @private
handle_call(info, _From, #state{peers = Peers} = State) ->
    {reply, #{node => yaltzumin_peers:me(Peers), joined => yaltzumin_peers:is_joined(Peers),
              members => yaltzumin_peers:members(Peers), left => yaltzumin_peers:told(Peers),
              calls => map_size(State#state.asked), processes => yaltzumin_owners:count(State#state.owners)}, State};
handle_call({synchronize, Nodes, Timeout}, From, #state{synchronizing = Waiting} = State) ->
    Until = case Timeout of infinity -> infinity; _ -> erlang:monotonic_time(millisecond) + Timeout end,
    {noreply, turned(State#state{synchronizing = [{Nodes, Until, From} | Waiting]})};
handle_call({text_of, Pid}, From, State) ->
    {noreply, turned(with_text(Pid, fun(Text, S) -> gen_server:reply(From, Text), S end, State))};
handle_call({set_lock, Resource, Requester, Nodes, Retries}, From, State) ->
    locks(<<"set_lock">>, [Resource, Requester], Nodes, [Retries], From, State);
handle_call({del_lock, Resource, Requester, Nodes}, From, State) ->
    locks(<<"del_lock">>, [Resource, Requester], Nodes, [], From, State);
handle_call(Request, From, #state{names = Names} = State) ->
    {noreply, turned(State#state{names = queue:in({Request, From}, Names)})}.

%% @private
handle_cast(_, State) ->
    {noreply, State}.

locks(Word, Lock, Nodes, Rest, {Holder, _} = From, State) ->
    case targets(Nodes, yaltzumin_peers:members(State#state.peers)) of
        none ->
            {reply, Word =:= <<"del_lock">>, State};
        Text ->
            Asks = fun(Owner, S) -> asks([Word, Owner] ++ Lock ++ [Text | Rest], answers(From), S) end,
            {noreply, turned(with_owner(Holder, Asks, State))}
    end.

%% Of these nodes, the members.
targets(all, _) ->
    <<"all">>;
targets(Nodes, Members) ->
    case [Node || Node <- Members, lists:member(Node, Nodes)] of
        [] -> none;
        Members -> <<"all">>;
        Some -> lists:join($,, [atom_to_binary(Node) || Node <- Some])
    end.

answers(From) ->
    fun(Reply, State) -> gen_server:reply(From, reply(Reply)), State end.

reply({error, Word}) -> {error, binary_to_atom(Word)};
reply(Word) -> binary_to_atom(Word).

%% The next name call goes to the program when the one before was answered, and rivals had their turn.
next_name(#state{is_naming = false, gives_way = none, names = Names} = State) ->
    case queue:out(Names) of
        {empty, _} -> State;
        {{value, {Request, From}}, Rest} -> names(Request, From, State#state{names = Rest, is_naming = true})
    end;
next_name(State) ->
    State.

names(Request, From, State0) ->
    Text = element(2, Request),
    Name = element(3, Request),
    State = behind(fun(S) -> yaltzumin_table:learn_term(Text, Name), S end, bury(Name, State0)),
    Then = fun(Reply, S) -> gen_server:reply(From, reply(Reply)), named(S) end,
    case Request of
        {unregister, _, _} ->
            asks([<<"unregister">>, Text], Then, State);
        {Word, _, _, {Pid, Owner}, Rule} ->
            yaltzumin_table:learn_pid(Owner, Pid),
            asks([atom_to_binary(Word), Text, Owner, Rule], Then, State);
        {Word, _, _, Pid, Rule} ->
            with_owner(Pid, fun(Owner, S) -> asks([atom_to_binary(Word), Text, Owner, Rule], Then, S) end, State)
    end.

%% A name call was answered. While others want the lock of names, the next one waits until one of them has asked for it again, or a
%% moment: else a node with many calls would ask again before a rival has heard that the lock is back.
named(#state{rivals = Rivals} = State) when map_size(Rivals) =:= 0 ->
    State#state{is_naming = false};
named(#state{rivals = Rivals} = State) ->
    Left = maps:from_list([{Node, Count - 1} || {Node, Count} <- maps:to_list(Rivals), Count > 1]),
    State#state{is_naming = false, rivals = Left, gives_way = erlang:start_timer(?GIVING_WAY, self(), goes_on)}.

%% A process that owned a name may be known to be dead here before its monitor fires: who is told to start it again comes at once.
bury(Name, State) ->
    case yaltzumin_table:owner(Name) of
        Pid when node(Pid) =:= node() ->
            case is_process_alive(Pid) of
                true -> State;
                false -> exited(Pid, State)
            end;
        _ ->
            State
    end.

exited(Pid, #state{owners = Owners} = State) ->
    case yaltzumin_owners:ended(Pid, Owners) of
        {none, Rest} -> State#state{owners = Rest};
        {Text, Rest} -> exits(Text, State#state{owners = Rest})
    end.

exits(Text, State) ->
    asks([<<"exit">>, Text], fun(_, S) -> S end, State).

%% Does something with the text of a process of this node, or with `self' where it is spawned by the line before.
with_owner(Pid, Then, #state{owners = Owners} = State) ->
    case yaltzumin_owners:find(Pid, Owners) of
        none -> Then(<<"self">>, spawns(Pid, State));
        _ -> with_text(Pid, Then, State)
    end.

%% Does something with the text of a process of this node, once it is known.
with_text(Pid, Then, #state{owners = Owners} = State) ->
    case yaltzumin_owners:find(Pid, Owners) of
        {ok, Text} -> Then(Text, State);
        spawning -> State#state{owners = yaltzumin_owners:wait(Pid, Then, Owners)};
        none -> with_text(Pid, Then, spawns(Pid, State))
    end.

spawns(Pid, #state{owners = Owners} = State) ->
    Spawns = asks([<<"spawn">>], fun(Text, S) -> spawned(Pid, Text, S) end, State#state{owners = yaltzumin_owners:add(Pid, Owners)}),
    behind(fun(#state{owners = Added} = S) -> S#state{owners = yaltzumin_owners:watch(Pid, Added)} end, Spawns).

spawned(_, {error, Word}, _) ->
    %% What was asked behind it of `self' is another process's: nothing of it may go out.
    exit({spawn_refused, Word});
spawned(Pid, Text, #state{owners = Owners} = State0) ->
    yaltzumin_table:learn_pid(Text, Pid),
    {Waiting, How, Rest} = yaltzumin_owners:spawned(Pid, Text, Owners),
    State = lists:foldl(fun(Then, S) -> Then(Text, S) end, State0#state{owners = Rest}, Waiting),
    case How of
        runs -> State;
        ended -> exits(Text, State)
    end.

asks(Words, Then, #state{tag = Tag, asked = Asked} = State) ->
    tells(yaltzumin_line:ask(Tag, Words), State#state{tag = Tag + 1, asked = Asked#{Tag => Then}}).

tells([], State) ->
    State;
tells(Line, #state{lines = Lines} = State) ->
    State#state{lines = [Lines | Line]}.

%% ------------------------------------------------------------------------------------------------------------ messages

%% @private
handle_info({Port, {data, Data}}, #state{port = Port} = State) ->
    goes_on(printed(Data, State));
handle_info({Port, {exit_status, Status}}, #state{port = Port} = State) ->
    {stop, {program_ended, Status}, State};
handle_info({'EXIT', Port, Why}, #state{port = Port} = State) ->
    {stop, {program_ended, Why}, State};
handle_info({'EXIT', _, Why}, State) ->
    {stop, Why, State};
handle_info({parted, Parted}, #state{peers = Peers} = State) ->
    case yaltzumin_peers:parted(Parted, Peers) of
        starts_anew -> {stop, {parted, maps:get(text, Parted)}, State};
        stays -> {noreply, State}
    end;
handle_info({torn, #{by := By} = Tear}, #state{peers = Peers} = State) ->
    case yaltzumin_peers:torn(Tear, Peers) of
        starts_anew -> {stop, {torn, By}, State};
        stays -> {noreply, State}
    end;
handle_info({starts_anew, Why}, State) ->
    {stop, Why, State};
handle_info(Message, State) ->
    goes_on(told(Message, State)).

goes_on(State) ->
    {noreply, turned(State)}.

told({letters, From, Letters, Known}, #state{peers = Peers} = State) ->
    case yaltzumin_peers:is_linked_from(From, Peers) of
        true ->
            Notes = fun(S) -> yaltzumin_table:learn(Known), noted(From, Letters, S) end,
            behind(Notes, lists:foldl(fun(Letter, S) -> heard(From, Letter, S) end, State, Letters));
        false ->
            %% Its node lives, or lived when it sent them: they are of a link that has ended.
            yaltzumin_peers:refuse(From, Peers),
            State
    end;
told({'DOWN', _, process, Pid, _}, State) when node(Pid) =:= node() ->
    exited(Pid, State);
told({'DOWN', _, process, Pid, _}, #state{peers = Peers} = State) ->
    knows(yaltzumin_peers:left(Pid, Peers), State);
told({lost, #{known := Known} = Loss}, #state{peers = Peers} = State) ->
    yaltzumin_table:learn(Known),
    knows(yaltzumin_peers:lost(Loss, Peers), State);
told({outlives, Tear}, State) ->
    yaltzumin_peers:outlives(Tear),
    State;
told({timeout, Ticks, tick}, #state{ticks = Ticks} = State) ->
    tells(yaltzumin_line:tick(), State#state{ticks = none});
told({timeout, Timer, goes_on}, #state{gives_way = Timer} = State) ->
    %% None asked: whoever asks again is a rival again.
    State#state{gives_way = none, rivals = #{}};
told({hello, Hello}, #state{peers = Peers} = State) ->
    knows(yaltzumin_peers:greeted(Hello, Peers), State);
told({who, From, Ref, Node}, #state{peers = Peers} = State) ->
    {Standing, Lines, Known} = yaltzumin_peers:asked(Node, Peers),
    From ! {stands, Ref, Standing},
    knows({Lines, Known}, State);
told({nodeup, Node}, #state{peers = Peers} = State) ->
    yaltzumin_peers:greet(Node, Peers),
    State;
told(look, #state{peers = Peers} = State) ->
    yaltzumin_peers:greet_all(true, Peers),
    State#state{is_looking = false};
told(around, #state{peers = Peers, connects = Connects} = State) ->
    _ = Connects andalso yaltzumin_peers:reconnect(Peers),
    _ = yaltzumin_peers:is_joined(Peers) orelse yaltzumin_peers:greet_all(true, Peers),
    erlang:send_after(?AROUND, self(), around),
    State;
told(sweep, State) ->
    yaltzumin_table:sweep(?SWEPT),
    erlang:send_after(?SWEEPING, self(), sweep),
    State;
told(_, State) ->
    State.

knows({Lines, Peers}, State) ->
    tells(Lines, State#state{peers = Peers}).

%% A letter came. The program is told before of the nodes that it names. Whoever asks for the lock of names is a rival, and who gave way to
%% rivals goes on.
heard(From, Letter, #state{peers = Before, rivals = Rivals, gives_way = Timer} = State) ->
    {Lines, Peers} = yaltzumin_peers:named(yaltzumin_line:nodes(Letter), Before),
    Heard = tells([Lines | yaltzumin_line:letter(From, Letter)], State#state{peers = Peers}),
    case yaltzumin_line:asks_global(Letter) of
        true ->
            _ = Timer =:= none orelse erlang:cancel_timer(Timer),
            Heard#state{rivals = Rivals#{From => ?RIVALRY}, gives_way = none};
        false ->
            Heard
    end.

%% What came is kept for the case that its sender dies.
noted(From, Letters, #state{peers = Peers} = State) ->
    State#state{peers = lists:foldl(fun(Letter, P) -> yaltzumin_peers:heard(From, Letter, P) end, Peers, Letters)}.

%% What a turn leaves is done: the next name call, a join, letters, the lines for the program. So the program and others work already while
%% the rest is done.
turned(State) ->
    rested(written(carried(synchronized(joins(next_name(State)))))).

behind(Rest, #state{behind = Behind} = State) ->
    State#state{behind = [Rest | Behind]}.

rested(#state{behind = []} = State) ->
    State;
rested(#state{behind = Behind} = State) ->
    lists:foldr(fun(Rest, S) -> Rest(S) end, State#state{behind = []}, Behind).

written(#state{lines = []} = State) ->
    State;
written(#state{port = Port, lines = Lines} = State) ->
    %% A program that has ended is told by a message.
    _ = iolist_size(Lines) =:= 0 orelse catch port_command(Port, Lines),
    State#state{lines = []}.

carried(#state{letters = Letters} = State) when map_size(Letters) =:= 0 ->
    State;
carried(#state{letters = Letters, peers = Peers} = State) ->
    Carry = fun(To, {Texts, Known}, P) -> yaltzumin_peers:carry(To, lists:reverse(Texts), Known, P) end,
    State#state{letters = #{}, peers = maps:fold(Carry, Peers, Letters)}.

synchronized(#state{synchronizing = []} = State) ->
    State;
synchronized(#state{synchronizing = Waiting, peers = Peers} = State) ->
    {Done, Rest} = lists:partition(fun({Nodes, _, _}) -> yaltzumin_peers:is_synchronous(Nodes, Peers) end, Waiting),
    [gen_server:reply(From, ok) || {_, _, From} <- Done],
    %% Nobody waits any more for what came too late: `infinity', an atom, is greater than any number.
    Now = erlang:monotonic_time(millisecond),
    State#state{synchronizing = [It || {_, Until, _} = It <- Rest, Until > Now]}.

%% A lone node joins whom it can.
joins(#state{is_joining = false, is_looking = false, has_left = false, peers = Peers} = State) ->
    case yaltzumin_peers:contact(Peers) of
        {join, Contact} -> asks([<<"join">>, Contact], fun joined/2, State#state{is_joining = true});
        missing -> looks(State);
        starts_anew -> starts_anew(welcome_lost, State);
        none -> State
    end;
joins(State) ->
    State.

joined(<<"joined">>, State) -> State#state{is_joining = false};
joined(_, State) -> looks(State#state{is_joining = false}).

looks(State) ->
    erlang:send_after(?LOOKING, self(), look),
    State#state{is_looking = true}.

%% The server ends, and with it the program, so that its supervisor starts the next.
starts_anew(Why, State) ->
    self() ! {starts_anew, Why},
    State#state{is_looking = true}.

%% ------------------------------------------------------------------------------------------------------------ what the program prints

printed(Data, #state{rest = <<>>} = State) ->
    shown_lines(binary:split(Data, <<"\n">>, [global]), State);
printed(Data, #state{rest = Rest} = State) ->
    printed(<<Rest/binary, Data/binary>>, State#state{rest = <<>>}).

shown_lines([<<>>], State) -> State;
shown_lines([Beginning], State) -> State#state{rest = Beginning};
shown_lines([Line | Lines], State) -> shown_lines(Lines, shown(yaltzumin_line:read(Line), State)).

shown({put, Name, Owner}, #state{whole = Pairs} = State) when is_list(Pairs) ->
    State#state{whole = [{Name, Owner} | Pairs]};
shown(Line, #state{whole = Pairs} = State) when is_list(Pairs) ->
    yaltzumin_table:replace(Pairs),
    shown(Line, State#state{whole = none});
shown({tag, Tag, Reply}, #state{asked = Asked} = State) ->
    {Then, Rest} = maps:take(Tag, Asked),
    Then(Reply, State#state{asked = Rest});
shown({send, To, Letter}, #state{letters = Letters} = State) ->
    {Texts, Known} = maps:get(To, Letters, {[], []}),
    State#state{letters = Letters#{To => {[Letter | Texts], yaltzumin_table:known(Letter) ++ Known}}};
shown({put, Name, Owner}, State) ->
    yaltzumin_table:put(Name, Owner),
    State;
shown({remove, Name}, State) ->
    yaltzumin_table:remove(Name),
    State;
shown({strike, Process}, State) ->
    yaltzumin_table:strike(Process),
    State;
shown({drop, Node}, State) ->
    yaltzumin_table:drop(Node),
    State;
shown(clear, State) ->
    %% The puts behind it are the whole table, which is shown at once: no look-up finds a name gone meanwhile.
    State#state{whole = []};
shown({state, Joined, Members}, #state{peers = Before} = State) ->
    Peers = yaltzumin_peers:set_state(Joined, Members, Before),
    [yaltzumin_peers:greet_all(false, Peers) || Joined, not yaltzumin_peers:is_joined(Before)],
    State#state{peers = Peers};
shown({kill, Process}, State) ->
    ends(yaltzumin_table:find_pid(Process)),
    State;
shown({notice, Process, Name, Other}, State) ->
    tells_of(yaltzumin_table:find_pid(Process), Name, Other),
    State;
shown(wait, #state{ticks = none} = State) ->
    State#state{ticks = erlang:start_timer(?TICK, self(), tick)};
shown(wait, State) ->
    State;
shown({_, Line}, State) ->
    logger:error("yaltzumin: the program printed ~ts", [Line]),
    State.

%% A process that lost its name is killed, or told. It may have been dead for long.
ends({ok, Pid}) -> exit(Pid, kill);
ends(none) -> true.

tells_of({ok, Pid}, Text, Other) ->
    Name = yaltzumin_table:term_of(Text),
    Pid ! case Other of
        none -> {global_name_conflict, Name};
        _ -> {global_name_conflict, Name, yaltzumin_table:pid_of(Other)}
    end;
tells_of(none, _, _) ->
    none.

%% ------------------------------------------------------------------------------------------------------------ the end

%% @private
format_status(Status) ->
    maps:map(fun(state, #state{peers = Peers, asked = Asked, owners = Owners}) ->
                     {yaltzumin_peers:me(Peers), {calls, map_size(Asked)}, {processes, yaltzumin_owners:count(Owners)}};
                (_, It) ->
                     It
             end, Status).

%% @private
terminate(Why, State) when Why =:= normal; Why =:= shutdown; element(1, Why) =:= shutdown ->
    Left = fun(_, S) -> S#state{has_left = true} end,
    leaves(turned(asks([<<"leave">>], Left, State)), erlang:monotonic_time(millisecond) + ?LEAVING);
terminate(_, _) ->
    ok.

%% The program leaves as soon as it doesn't hold the lock of names, which other nodes may have to answer for.
leaves(#state{has_left = true}, _) ->
    ok;
leaves(#state{port = Port} = State, Until) ->
    receive
        {Port, {data, Data}} -> leaves(turned(printed(Data, State)), Until);
        {Port, {exit_status, _}} -> ok;
        {'EXIT', Port, _} -> ok;
        {letters, _, _, _} = Message -> leaves(turned(told(Message, State)), Until);
        {lost, _} = Message -> leaves(turned(told(Message, State)), Until);
        {timeout, _, _} = Message -> leaves(turned(told(Message, State)), Until);
        {'DOWN', _, process, _, _} = Message -> leaves(turned(told(Message, State)), Until)
    after max(0, Until - erlang:monotonic_time(millisecond)) ->
        ok
    end.
