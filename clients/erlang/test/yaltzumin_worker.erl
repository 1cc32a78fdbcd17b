%% What is called at nodes.
-module(yaltzumin_worker).
-behaviour(gen_server).
-export([init/1, handle_call/3, handle_cast/2]).
-export([owner/0, owner/1, registered/1, registered/2, registered/3, heard/1, kill/1, lock_and_wait/3, restarted/1, starters/2, counted/3]).
-export([churn/1, steps/0, churned/0, watch/1, misses/0]).
-export([kept/0, keeper/0, started/3, singleton/0, cut_off/1, dies_writing/2, asks_on/1, asked/0]).

init(State) -> {ok, State}.
handle_call(who, _, State) -> {reply, {node(), self()}, State};
handle_call(get, _, State) -> {reply, State, State};
handle_call({set, State}, _, _) -> {reply, ok, State}.
handle_cast(_, State) -> {noreply, State}.

%% Starts a server of a name, of whatever behaviour.
started(Behaviour, Name, State) ->
    Behaviour:start({via, yaltzumin, Name}, ?MODULE, State, []).

%% A count that processes of all nodes raise.
keeper() ->
    {ok, _} = started(gen_server, counter, 0),
    ok.
kept() ->
    gen_server:call({via, yaltzumin, counter}, get).

%% The supervisor of the singleton of the example, apart from the process that asks for it.
singleton() ->
    Me = self(),
    spawn(fun() -> {ok, _} = singleton_sup:start_link(), Me ! started, receive never -> ok end end),
    receive started -> ok end.

%% A process that waits, and keeps what it is sent.
owner() ->
    spawn(fun() -> keep([]) end).
keep(Heard) ->
    receive
        {heard, From} -> From ! {self(), lists:reverse(Heard)}, keep(Heard);
        Message -> keep([Message | Heard])
    end.
heard(Pid) ->
    Pid ! {heard, self()},
    Ref = monitor(process, Pid),
    receive
        {Pid, Heard} -> demonitor(Ref, [flush]), Heard;
        {'DOWN', Ref, _, _, _} -> dead
    end.
owner(Name) ->
    yaltzumin:whereis_name(Name).

registered(Name) ->
    registered(Name, exit).
registered(Name, Rule) ->
    registered(Name, Rule, owner()).
registered(Name, Rule, Pid) ->
    {yaltzumin:register_name(Name, Pid, Rule), Pid}.

kill(Pid) ->
    Ref = monitor(process, Pid),
    exit(Pid, kill),
    receive {'DOWN', Ref, _, _, _} -> ok end.

%% A process that sets a lock and tells so, until it is killed.
lock_and_wait(Id, Nodes, Retries) ->
    Me = self(),
    Pid = spawn(fun() -> Me ! {self(), yaltzumin:set_lock(Id, Nodes, Retries)}, receive never -> ok end end),
    receive {Pid, Answer} -> {Answer, Pid} end.

%% A process of a name is killed and started again at once under it, as a supervisor does: how often that went well.
restarted(Times) ->
    length([1 || Time <- lists:seq(1, Times), restarts({restarts, node(), Time})]).
restarts(Name) ->
    {ok, Pid} = gen_server:start({via, yaltzumin, Name}, ?MODULE, one, []),
    kill(Pid),
    {ok, Next} = gen_server:start({via, yaltzumin, Name}, ?MODULE, two, []),
    gen_server:call({via, yaltzumin, Name}, who) =:= {node(), Next}.

%% So many processes start a server of one name at once: those that were started, and whom all others were told.
starters(Name, Count) ->
    Starter = fun() -> gen_server:start({via, yaltzumin, Name}, ?MODULE, one, []) end,
    Refs = [element(2, spawn_monitor(fun() -> exit({done, Starter()}) end)) || _ <- lists:seq(1, Count)],
    Answers = [receive {'DOWN', Ref, _, _, {done, Answer}} -> Answer end || Ref <- Refs],
    {[Pid || {ok, Pid} <- Answers], lists:usort([Pid || {error, {already_started, Pid}} <- Answers])}.

%% Processes count up under a lock what another node keeps, so that no two may do so at once.
counted(Lock, Processes, Times) ->
    Refs = [element(2, spawn_monitor(fun() -> count(Lock, Times) end)) || _ <- lists:seq(1, Processes)],
    [receive {'DOWN', Ref, _, _, Why} -> Why end || Ref <- Refs].
count(_, 0) ->
    ok;
count(Lock, Times) ->
    ok = yaltzumin:trans({Lock, self()}, fun() ->
        gen_server:call({via, yaltzumin, counter}, {set, kept() + 1})
    end),
    count(Lock, Times - 1).

%% ------------------------------------------------------------------------------------------------------------ names and locks, ever on

%% Registers, takes away and locks by chance, until it is stopped.
churn(Seed) ->
    Me = self(),
    spawn(fun() ->
        register(churn, self()),
        rand:seed(exsss, Seed),
        Me ! ready,
        churn(0, [])
    end),
    receive ready -> ok end.
churn(Steps, Holds) ->
    receive
        {steps, From} -> From ! {steps, Steps}, churn(Steps, Holds);
        {churned, From} -> From ! {churned, Holds}
    after 0 ->
        case tried(rand:uniform(10), Holds) of
            {made, Next} -> churn(Steps + 1, Next);
            failed -> churn(Steps, Holds)
        end
    end.
%% A step may fail while the server of this node starts anew.
tried(Kind, Holds) ->
    try {made, churn_step(Kind, Holds)} catch exit:_ -> timer:sleep(1), failed end.
churn_step(Kind, Holds) when Kind =< 4 ->
    Pid = owner(),
    case {yaltzumin:register_name(churn_name(), Pid), rand:uniform(3)} of
        {yes, More} when More > 1 -> Holds;
        _ -> exit(Pid, kill), Holds
    end;
churn_step(5, Holds) ->
    yaltzumin:unregister_name(churn_name()),
    Holds;
churn_step(6, Holds) ->
    yaltzumin:re_register_name(churn_name(), owner()),
    Holds;
churn_step(_, Holds) ->
    Place = place(),
    Held = yaltzumin:trans({churned_lock, self()}, fun() ->
        From = os:perf_counter(),
        timer:sleep(rand:uniform(3) - 1),
        {From, os:perf_counter()}
    end),
    %% Where this node started anew meanwhile, the lock was lost; and what a lone node gives is no lock of the cluster.
    case place() of
        {_, true} = Place -> [Held | Holds];
        _ -> Holds
    end.
place() ->
    {maps:get(node, yaltzumin:info()), yaltzumin:is_joined()}.
churn_name() ->
    {churned, rand:uniform(12)}.

%% How many steps it has made.
steps() ->
    churn ! {steps, self()},
    receive {steps, Steps} -> Steps end.

%% Stops it, and gives when it held the lock.
churned() ->
    churn ! {churned, self()},
    receive {churned, Holds} -> Holds end.

%% ------------------------------------------------------------------------------------------------------------ look-ups, ever on

%% Looks a name up until it is asked how often nobody had it.
watch(Name) ->
    Me = self(),
    spawn(fun() -> register(watch, self()), Me ! ready, watch(Name, 0) end),
    receive ready -> ok end.
watch(Name, Misses) ->
    receive
        {misses, From} -> From ! {misses, Misses}
    after 0 ->
        case yaltzumin:whereis_name(Name) of
            undefined -> watch(Name, Misses + 1);
            _ -> watch(Name, Misses)
        end
    end.
misses() ->
    watch ! {misses, self()},
    receive {misses, Misses} -> Misses end.

%% ------------------------------------------------------------------------------------------------------------ deaths and cuts

%% Cuts the connections with these nodes, at once and for good, until their cookies are right again.
cut_off(Nodes) ->
    Me = self(),
    spawn(fun() ->
        process_flag(priority, max),
        [erlang:set_cookie(Node, cut) || Node <- Nodes],
        [erlang:disconnect_node(Node) || Node <- Nodes],
        Me ! {cut_off, self()}
    end),
    receive {cut_off, _} -> ok end.

%% Has this node die in the middle of its next write that begins with this word: nothing of it goes to that other node. Waits until it knows
%% the other.
dies_writing(Word, Node) ->
    Server = rpc:call(Node, erlang, whereis, [yaltzumin_server]),
    Between = spawn(fun() -> hands_on(Server, <<" ", Word/binary>>) end),
    until_between(Server, Between).
until_between(Server, Between) ->
    Before = sys:get_state(yaltzumin_server),
    case replaced(Server, Between, Before) of
        Before -> timer:sleep(10), until_between(Server, Between);
        _ -> _ = sys:replace_state(yaltzumin_server, fun(State) -> replaced(Server, Between, State) end), ok
    end.
hands_on(Server, Word) ->
    receive
        {letters, _, Letters, _} = Message ->
            case lists:any(fun(Letter) -> binary:match(Letter, Word) =/= nomatch end, Letters) of
                %% What went to the other nodes is on its way.
                true -> timer:sleep(300), os:cmd("kill -9 " ++ os:getpid());
                false -> Server ! Message, hands_on(Server, Word)
            end;
        Message ->
            Server ! Message,
            hands_on(Server, Word)
    end.
replaced(One, Other, One) -> Other;
replaced(One, Other, [Head | Tail]) -> [replaced(One, Other, Head) | replaced(One, Other, Tail)];
replaced(One, Other, Tuple) when is_tuple(Tuple) -> list_to_tuple(replaced(One, Other, tuple_to_list(Tuple)));
replaced(One, Other, Map) when is_map(Map) -> maps:map(fun(_, Value) -> replaced(One, Other, Value) end, Map);
replaced(_, _, Term) -> Term.

%% So many processes register, without a pause, until they are answered by an exit.
asks_on(Count) ->
    Me = self(),
    spawn(fun() ->
        register(askers, self()),
        Refs = [element(2, spawn_monitor(fun() -> asks_on({asks, Number}, owner()) end)) || Number <- lists:seq(1, Count)],
        Me ! {ready, self()},
        Ends = [receive {'DOWN', Ref, _, _, Why} -> Why end || Ref <- Refs],
        receive {asked, From} -> From ! {asked, Ends} end
    end),
    receive {ready, _} -> ok end.
asks_on(Name, Pid) ->
    _ = yaltzumin:register_name(Name, Pid),
    _ = yaltzumin:unregister_name(Name),
    asks_on(Name, Pid).

%% How they ended, once all have.
asked() ->
    askers ! {asked, self()},
    receive {asked, Ends} -> Ends end.
