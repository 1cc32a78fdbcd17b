%% Measures `global' and the application in the same nodes and the same run, in turn. Prints a row for each figure: what it is, how many nodes
%% there are, whose it is, and the figure.
-module(yaltzumin_measures).
-export([main/1]).
-export([called/2, registered/3, prepared/2, cleared/1, looked_up/3, locked/2, transacted/2, loads/3, loaded/0, many/3, started/3]).
-export([watches/1, watched/0, unwatched/1, killed/2, killed_at_once/2, registers/2, has/2, gone_at/2]).

-import(yaltzumin_nodes, [call/4, name/1, run/2, run/3, settled/1, start/1, stop/1, until/2]).

-define(REGISTRIES, [global, yaltzumin]).
-define(DISTINCT, 200).    % registrations before those that count
-define(LOOK_UPS, 300000).

%% main([Sizes, Parts, Repeats, Rounds, Seconds]), each a text.
main([Sizes, Parts, Repeats, Rounds, Seconds]) ->
    Options = #{parts => [list_to_atom(Part) || Part <- string:lexemes(Parts, ",")], repeats => list_to_integer(Repeats),
                rounds => list_to_integer(Rounds), seconds => list_to_integer(Seconds)},
    [measure(list_to_integer(Size), Options) || Size <- string:lexemes(Sizes, ",")],
    halt(0).

measure(Size, #{parts := Parts, repeats := Repeats} = Options) ->
    Names = ["g" ++ integer_to_list(Place) || Place <- lists:seq(1, Size)],
    Nodes = yaltzumin_nodes:cluster(Names),
    %% OTP's own names are settled, too.
    [until(connected, fun() -> length(call(Node, erlang, nodes, [])) =:= Size - 1 andalso call(Node, global, sync, []) =:= ok end) || Node <- Nodes],
    [figures(Part, Registry, Nodes, Options) || Part <- Parts, Part =/= join, _ <- lists:seq(1, Repeats), Registry <- ?REGISTRIES],
    lists:foreach(fun yaltzumin_nodes:stop/1, Nodes),
    [joins(Registry, Names) || lists:member(join, Parts), Size < 8, _ <- lists:seq(1, Repeats), Registry <- ?REGISTRIES].

at(Node, Function, Arguments) -> call(Node, ?MODULE, Function, Arguments).

row(What, Nodes, Registry, Value) ->
    io:format("~s\t~w\t~s\t~.3f~n", [What, length(Nodes), Registry, Value * 1.0]).

median(Values) -> share(0.5, Values).
share(Part, Values) -> lists:nth(max(1, ceil(Part * length(Values))), lists:sort(Values)).

figures(base, global, [First | _] = Nodes, #{rounds := Rounds}) ->
    row("call and answer between two nodes, us", Nodes, "OTP", median(at(First, called, [name(lists:last(Nodes)), Rounds])) / 1.0e3);
figures(base, yaltzumin, _, _) ->
    ok;
figures(register, Registry, [First | _] = Nodes, #{rounds := Rounds}) ->
    [begin
        _ = at(Node, registered, [Registry, ?DISTINCT, warm]),
        {Named, Freed} = at(Node, registered, [Registry, Rounds, timed]),
        row("register, " ++ Which ++ ", us", Nodes, Registry, median(Named) / 1.0e3),
        row("unregister, " ++ Which ++ ", us", Nodes, Registry, median(Freed) / 1.0e3)
     end || {Which, Node} <- [{"least node", First}, {"greatest node", lists:last(Nodes)}]];
figures(names, Registry, [First, _] = Nodes, #{rounds := Rounds}) ->
    ok = at(First, prepared, [Registry, 10000]),
    {Named, _} = at(First, registered, [Registry, Rounds, timed]),
    row("register beside 10,000 names, us", Nodes, Registry, median(Named) / 1.0e3),
    ok = at(First, cleared, [Registry]);
figures(names, _, _, _) ->
    ok;
figures(whereis, Registry, [First | _] = Nodes, _) ->
    ok = at(First, prepared, [Registry, 1000]),
    [row("whereis, " ++ What ++ ", ns", Nodes, Registry, at(Node, looked_up, [Registry, ?LOOK_UPS, Key]))
     || {What, Node, Key} <- [{"owner of this node", First, 500}, {"owner of another node", lists:last(Nodes), 500}, {"absent", First, none}]],
    ok = at(First, cleared, [Registry]);
figures(lock, Registry, [First | _] = Nodes, #{rounds := Rounds}) ->
    _ = at(First, locked, [Registry, ?DISTINCT]),
    {Set, Deleted} = at(First, locked, [Registry, Rounds]),
    row("set_lock, all nodes, us", Nodes, Registry, median(Set) / 1.0e3),
    row("del_lock, us", Nodes, Registry, median(Deleted) / 1.0e3),
    row("trans, us", Nodes, Registry, median(at(First, transacted, [Registry, Rounds])) / 1.0e3);
figures(death, Registry, [First | _] = Nodes, _) ->
    [ok = at(Node, watches, [Registry]) || Node <- Nodes],
    Killed = at(First, killed, [Registry, 100]),
    row("exit until gone on the last node, us", Nodes, Registry, median([last_gone(Registry, Nodes, Name) - Time || {Name, Time} <- Killed]) / 1.0e3),
    {Time, Names} = at(First, killed_at_once, [Registry, 200]),
    row("200 owners die at once, last name gone, ms", Nodes, Registry, (lists:max([last_gone(Registry, Nodes, Name) || Name <- Names]) - Time) / 1.0e6),
    [ok = at(Node, unwatched, [Registry]) || Node <- Nodes];
figures(load, Registry, [First | _] = Nodes, #{seconds := Seconds}) ->
    rates("one node alone, register and unregister", names, Registry, [First], Nodes, Seconds),
    rates("all nodes, register and unregister", names, Registry, Nodes, Nodes, Seconds),
    rates("all nodes, trans on one lock", lock, Registry, Nodes, Nodes, Seconds);
figures(starters, Registry, Nodes, _) ->
    Name = {the_one, erlang:unique_integer()},
    Refs = [element(2, spawn_monitor(fun() -> exit({started, at(Node, started, [Registry, Name, 500])}) end)) || Node <- Nodes],
    Answers = [receive {'DOWN', Ref, _, _, {started, Answer}} -> Answer end || Ref <- Refs],
    1 = length([Pid || {Pids, _} <- Answers, Pid <- Pids]),
    row("500 starters of one name at each node, all answered, ms", Nodes, Registry, lists:max([Took || {_, Took} <- Answers]) / 1.0e6).

last_gone(Registry, Nodes, Name) ->
    lists:max([at(Node, gone_at, [Registry, Name]) || Node <- Nodes]).

rates(What, Kind, Registry, Busy, Nodes, Seconds) ->
    [ok = at(Node, loads, [Kind, Registry, Seconds]) || Node <- Busy],
    Calls = [at(Node, loaded, []) || Node <- Busy],
    Counts = [length(It) || It <- Calls],
    row(What ++ ", a second", Nodes, Registry, lists:sum(Counts) / Seconds),
    row(What ++ ", least served node, calls", Nodes, Registry, lists:min(Counts)),
    row(What ++ ", longest call, ms", Nodes, Registry, lists:max(lists:append(Calls)) / 1.0e6).

%% A node meets a cluster, with a name of its own, and is killed.
joins(Registry, Names) ->
    World = Names ++ ["z"],
    Nodes = [First | _] = yaltzumin_nodes:cluster(Names, World),
    Last = start("z"),
    _ = Registry =:= yaltzumin andalso run(Last, World, [{connect, false}]),
    yes = at(Last, registers, [Registry, newcomer]),
    [ok = at(Node, watches, [Registry]) || Node <- Nodes],
    From = now_ns(),
    true = call(Last, net_kernel, connect_node, [name(First)]),
    until(joined, fun() -> lists:all(fun(Node) -> at(Node, has, [Registry, newcomer]) end, Nodes) end),
    row("a lone node joins, its name on all members, ms", Nodes, Registry, (now_ns() - From) / 1.0e6),
    _ = Registry =:= yaltzumin andalso settled([Last | Nodes]),
    Died = now_ns(),
    yaltzumin_nodes:kill(Last),
    Gone = [at(Node, gone_at, [Registry, newcomer]) || Node <- Nodes],
    row("a node is killed, its name gone everywhere, ms", Nodes, Registry, (lists:max(Gone) - Died) / 1.0e6),
    lists:foreach(fun yaltzumin_nodes:stop/1, Nodes).

%% ------------------------------------------------------------------------------------------------------------ at the nodes

%% The same clock at all nodes of a machine.
now_ns() -> os:perf_counter(nanosecond).

timed(Call) ->
    From = now_ns(),
    _ = Call(),
    now_ns() - From.

idle() -> receive stop -> ok end.
idles(Count) -> [spawn(fun idle/0) || _ <- lists:seq(1, Count)].
ended(Pids) -> lists:foreach(fun(Pid) -> exit(Pid, kill) end, Pids).
numbered(Tag, Number) -> {Tag, node(), Number}.

called(Node, Count) ->
    [timed(fun() -> gen_server:call({global_name_server, Node}, get_protocol_version) end) || _ <- lists:seq(1, Count)].

registered(Registry, Count, Tag) ->
    Work = [{numbered(Tag, Number), spawn(fun idle/0)} || Number <- lists:seq(1, Count)],
    Times = [{timed(fun() -> yes = Registry:register_name(Name, Pid) end), timed(fun() -> Registry:unregister_name(Name) end)} || {Name, Pid} <- Work],
    ended([Pid || {_, Pid} <- Work]),
    lists:unzip(Times).

prepared(Registry, Count) ->
    Pids = idles(Count),
    [yes = Registry:register_name(numbered(prepared, Number), Pid) || {Number, Pid} <- lists:zip(lists:seq(1, Count), Pids)],
    persistent_term:put({?MODULE, Registry}, Pids).

cleared(Registry) ->
    ended(persistent_term:get({?MODULE, Registry})),
    until(cleared, fun() -> Registry:registered_names() =:= [] end).

looked_up(Registry, Count, Key) ->
    Name = case [It || {_, _, Number} = It <- Registry:registered_names(), Number =:= Key] of [It] -> It; [] -> {none, node(), Key} end,
    Loop = fun(Look) -> median([timed(fun() -> many(Look, Name, Count) end) || _ <- [1, 2, 3]]) end,
    (Loop(fun Registry:whereis_name/1) - Loop(fun erlang:is_atom/1)) / Count.

many(_, _, 0) -> ok;
many(Look, Name, Count) -> _ = Look(Name), many(Look, Name, Count - 1).

locked(Registry, Count) ->
    Id = {measured, self()},
    Nodes = [node() | nodes()],
    lists:unzip([{timed(fun() -> true = Registry:set_lock(Id, Nodes, 0) end), timed(fun() -> Registry:del_lock(Id, Nodes) end)} || _ <- lists:seq(1, Count)]).

transacted(Registry, Count) ->
    Nodes = [node() | nodes()],
    [timed(fun() -> done = Registry:trans({transacted, self()}, fun() -> done end, Nodes, 0) end) || _ <- lists:seq(1, Count)].

%% Calls without a pause for so many seconds.
loads(Kind, Registry, Seconds) ->
    Loader = spawn(fun() ->
        Owner = spawn(fun idle/0),
        Times = load(Kind, Registry, Owner, 1, now_ns() + Seconds * 1000000000, []),
        receive {loaded, From} -> From ! {loaded, Times} end
    end),
    register(?MODULE, Loader),
    ok.

load(Kind, Registry, Owner, Number, Until, Times) ->
    case now_ns() < Until of
        true -> load(Kind, Registry, Owner, Number + 1, Until, loading(Kind, Registry, Owner, Number) ++ Times);
        false -> Times
    end.

loading(names, Registry, Owner, Number) ->
    Name = numbered(load, Number),
    [timed(fun() -> yes = Registry:register_name(Name, Owner) end), timed(fun() -> Registry:unregister_name(Name) end)];
loading(lock, Registry, _, _) ->
    [timed(fun() -> done = Registry:trans({contended, self()}, fun() -> done end, [node() | nodes()], infinity) end)].

loaded() ->
    Loader = whereis(?MODULE),
    Ref = monitor(process, Loader),
    Loader ! {loaded, self()},
    Times = receive {loaded, It} -> It end,
    receive {'DOWN', Ref, _, _, _} -> Times end.

started(Registry, Name, Count) ->
    Starter = fun() -> exit({done, gen_server:start({via, Registry, Name}, yaltzumin_worker, one, [])}) end,
    From = now_ns(),
    Refs = [element(2, spawn_monitor(Starter)) || _ <- lists:seq(1, Count)],
    Answers = [receive {'DOWN', Ref, _, _, {done, Answer}} -> Answer end || Ref <- Refs],
    {[Pid || {ok, Pid} <- Answers], now_ns() - From}.

registers(Registry, Name) -> Registry:register_name(Name, spawn(fun idle/0)).

table(global) -> global_names;
table(yaltzumin) -> yaltzumin_names.
has(Registry, Name) -> ets:member(table(Registry), Name).

%% When names go is seen by the calls that take them out of the node's table.
taken_out(global) -> {global_name_server, {global, delete_global_name, 2}};
taken_out(yaltzumin) -> {yaltzumin_server, {yaltzumin_table, remove, 1}}.

watches(Registry) ->
    {Server, Function} = taken_out(Registry),
    Me = self(),
    Watcher = spawn(fun() ->
        register(yaltzumin_watch, self()),
        process_flag(priority, high),
        _ = erlang:trace_pattern(Function, true, [local]),
        1 = erlang:trace(whereis(Server), true, [call, {tracer, self()}]),
        Me ! {self(), watches},
        watch(#{})
    end),
    receive {Watcher, watches} -> ok end.

watch(Seen) ->
    receive
        {trace, _, call, {_, _, [Key | _]}} -> watch(Seen#{Key => now_ns()});
        {seen, From} -> From ! {seen, Seen}, watch(Seen);
        stop -> ok
    end.

watched() ->
    yaltzumin_watch ! {seen, self()},
    receive {seen, Seen} -> Seen end.

unwatched(Registry) ->
    {_, Function} = taken_out(Registry),
    Ref = monitor(process, yaltzumin_watch),
    yaltzumin_watch ! stop,
    receive {'DOWN', Ref, _, _, _} -> ok end,
    _ = erlang:trace_pattern(Function, false, [local]),
    ok.

%% When a name went here, once it has.
gone_at(Registry, Name) ->
    Keys = [Name, yaltzumin_text:of_term(Name)],
    until(gone, fun() -> not has(Registry, Name) andalso lists:any(fun(Key) -> is_map_key(Key, watched()) end, Keys) end),
    Seen = watched(),
    lists:max([maps:get(Key, Seen, 0) || Key <- Keys]).

killed(Registry, Count) ->
    [begin
        Name = numbered(killed, Number),
        Pid = spawn(fun idle/0),
        yes = Registry:register_name(Name, Pid),
        timer:sleep(10),
        Time = now_ns(),
        exit(Pid, kill),
        timer:sleep(10),
        {Name, Time}
     end || Number <- lists:seq(1, Count)].

killed_at_once(Registry, Count) ->
    Pids = idles(Count),
    Names = [begin Name = numbered(at_once, Number), yes = Registry:register_name(Name, Pid), Name end || {Number, Pid} <- lists:zip(lists:seq(1, Count), Pids)],
    timer:sleep(100),
    Time = now_ns(),
    ended(Pids),
    {Time, Names}.
