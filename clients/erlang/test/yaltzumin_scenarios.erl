%% What clusters of real nodes are asked, each scenario by itself: `main(Name)' plays one, and ends the controller with status 0 where all
%% came as it should.
-module(yaltzumin_scenarios).
-export([main/1, names/0, terms/0, clashes/0, locks/0, restarts/0, starters/0, leaves/0, kills/0, programs/0, singleton/0, refusals/0]).
-export([returns/0, lives/0, forgets/0, cuts/0, torn/0, writes/0, chances/0]).

-import(yaltzumin_nodes, [call/4, cluster/1, cluster/2, expect/3, kill/1, name/1, program_pid/1, run/2, run/3, settled/1, start/1, stop/1,
                          until/1, until/2, until/3]).

main([Name]) ->
    Scenario = list_to_atom(Name),
    try ?MODULE:Scenario() of
        _ -> halt(0)
    catch
        _:Why:Where ->
            io:format(standard_error, "~0tp at ~0tp~n", [Why, [{F, element(2, lists:keyfind(line, 1, L))} || {?MODULE, F, _, L} <- Where]]),
            halt(1)
    end.

%% Calls of the worker at a node.
at(Node, Function, Arguments) -> call(Node, yaltzumin_worker, Function, Arguments).
%% Calls of the module.
ask(Node, Function, Arguments) -> call(Node, yaltzumin, Function, Arguments).
owners(Nodes, Name) -> lists:usort([ask(Node, whereis_name, [Name]) || Node <- Nodes]).
owned(Nodes, Name, Pid) -> until({owner, Name}, fun() -> owners(Nodes, Name) end, [Pid]).
gone(Nodes, Name) -> owned(Nodes, Name, undefined).
lives(Node, Pid) -> call(Node, erlang, is_process_alive, [Pid]).
stopped(Nodes) -> lists:foreach(fun yaltzumin_nodes:stop/1, Nodes).

%% Names at three nodes, and the end of their owners.
names() ->
    [A, B, C] = Nodes = cluster(["g1", "g2", "g3"]),
    {yes, P} = at(A, registered, [leader]),
    expect("the owner everywhere", [P], owners(Nodes, leader)),
    {no, _} = at(B, registered, [leader]),
    {no, _} = at(A, registered, [leader]),
    expect("a second name of a process", no, ask(B, register_name, [second, P])),
    expect("a second name all the same", yes, ask(B, re_register_name, [second, P])),
    expect("names", [leader, second], lists:sort(ask(C, registered_names, []))),
    expect("a message to a name", P, ask(C, send, [leader, hello])),
    until(fun() -> at(A, heard, [P]) =:= [hello] end),
    Q = at(C, owner, []),
    expect("another owner", yes, ask(C, re_register_name, [leader, Q])),
    expect("the other owner everywhere", [Q], owners(Nodes, leader)),
    expect("a name taken away", ok, ask(B, unregister_name, [second])),
    expect("nobody", [undefined], owners(Nodes, second)),
    expect("a name taken away again", ok, ask(B, unregister_name, [second])),
    {yes, _} = at(B, registered, [second]),
    at(C, kill, [Q]),
    gone(Nodes, leader),
    expect("a dead process of this node", undefined, ask(C, whereis_name, [leader])),
    {no, _} = at(A, registered, [second]),
    expect("behaviours", [ok, ok, ok], [via(Nodes, Name) || Name <- [first_server, {server, 2}, "server 3"]]),
    R = at(A, owner, []),
    expect("a name of a process of another node", yes, ask(B, register_name, [many, R])),
    [yes = ask(C, re_register_name, [{many, N}, R]) || N <- lists:seq(1, 50)],
    expect("names of one process", [R], owners(Nodes, {many, 50})),
    at(A, kill, [R]),
    [gone(Nodes, Name) || Name <- [many, {many, 1}, {many, 50}]],
    D = start("g4"),
    expect("no owner of a node that is no member", no, ask(A, register_name, [stranger, call(D, erlang, whereis, [init])])),
    stopped([D | Nodes]).

via([A, B, C], Name) ->
    {ok, P} = at(A, started, [gen_server, Name, 1]),
    expect("a server that runs already", {error, {already_started, P}}, at(B, started, [gen_server, Name, 2])),
    expect("a call by its name", {name(A), P}, call(C, gen_server, call, [{via, yaltzumin, Name}, who])),
    ok.

%% Any term is a name, a resource and a requester.
terms() ->
    [A, B] = Nodes = cluster(["g1", "g2"]),
    Terms = [plain, 'two words', '@x', '', "text", <<"text">>, 1, 1.0, {a, term, "x"}, [], #{b => 1, a => 2}, self(), make_ref(),
             lists:seq(1, 1000), 'Straße', list_to_atom(lists:duplicate(255, $y)), global],
    Pids = [begin {yes, P} = at(A, registered, [Term]), P end || Term <- Terms],
    expect("their owners", Pids, [ask(B, whereis_name, [Term]) || Term <- Terms]),
    Names = ask(B, registered_names, []),
    expect("all of them", {[], []}, {Terms -- Names, Names -- Terms}),
    expect("locks of them", [true], lists:usort([ask(B, set_lock, [{Term, Term}, all, 0]) || Term <- Terms])),
    [ok = ask(B, unregister_name, [Term]) || Term <- Terms],
    expect("no names", [[], []], [ask(Node, registered_names, []) || Node <- Nodes]),
    stopped(Nodes).

%% A lone node joins that has names which the cluster has, too.
clashes() ->
    [A, B] = cluster(["g1", "g2"], ["g1", "g2", "g3"]),
    Rules = [fun global:random_exit_name/3, notify, notify_all],
    Names = [killed, {told, one}, "told both"],
    [P1, P2, P3] = [begin {yes, P} = at(A, registered, [Name, Rule]), P end || {Name, Rule} <- lists:zip(Names, Rules)],
    C = start("g3"),
    ok = run(C, ["g1", "g2", "g3"], [{connect, false}]),
    [Q1, Q2, Q3] = [begin {yes, Q} = at(C, registered, [Name, Rule]), Q end || {Name, Rule} <- lists:zip(Names, Rules)],
    {yes, Own} = at(C, registered, [own]),
    expect("a lone node", false, ask(C, is_joined, [])),
    expect("a name of the cluster isn't there", undefined, ask(A, whereis_name, [own])),
    ok = at(C, watch, [own]),
    expect("it joins", ok, ask(C, join, [name(A), infinity])),
    Nodes = [A, B, C],
    settled(Nodes),
    expect("its own name was there at each moment", 0, at(C, misses, [])),
    expect("its own name everywhere", [Own], owners(Nodes, own)),
    expect("the first of the owners keeps a name", [[P1], [P2], [undefined]], [owners(Nodes, Name) || Name <- Names]),
    until(fun() -> not lives(C, Q1) end),
    expect("all others live", [true, true, true, true, true], [lives(A, P) || P <- [P1, P2, P3]] ++ [lives(C, Q) || Q <- [Q2, Q3]]),
    until(fun() -> at(C, heard, [Q2]) =:= [{global_name_conflict, {told, one}}] end),
    until(fun() -> at(A, heard, [P3]) =:= [{global_name_conflict, "told both", Q3}] end),
    until(fun() -> at(C, heard, [Q3]) =:= [{global_name_conflict, "told both", P3}] end),
    expect("the others heard nothing", [[], []], [at(A, heard, [P]) || P <- [P1, P2]]),
    {yes, _} = at(C, registered, ["told both"]),
    stopped(Nodes).

%% Locks, and that no two hold one.
locks() ->
    [A, B, C] = Nodes = cluster(["g1", "g2", "g3"]),
    {true, P} = at(A, lock_and_wait, [{printer, one}, all, infinity]),
    expect("a lock that another has", false, ask(B, set_lock, [{printer, two}, all, 0])),
    expect("a lock that another has, tried again", false, ask(C, set_lock, [{printer, two}, [name(A), name(B)], 1])),
    expect("another lock", true, ask(B, set_lock, [{{printer, 2}, two}, all, 0])),
    expect("the lock by its requester", true, ask(C, set_lock, [{printer, one}, all, 0])),
    Me = self(),
    spawn_link(fun() -> Me ! {waited, ask(B, trans, [{printer, two}, fun erlang:node/0])} end),
    timer:sleep(100),
    at(A, kill, [P]),
    receive {waited, Where} -> expect("the lock, once its holder is dead", name(B), Where) end,
    expect("no member", [false, true], [ask(A, set_lock, [{printer, one}, ['x@localhost'], 0]), ask(A, del_lock, [{printer, one}, ['x@localhost']])]),
    expect("a resource of the program's own name", true, ask(A, set_lock, [{global, me}, all, 0])),
    {yes, _} = at(B, registered, [free]),
    expect("what a transaction gives", 7, ask(A, trans, [{t, me}, fun() -> 7 end])),
    expect("one in another", 8, ask(A, trans, [{t, me}, fun() -> yaltzumin:trans({t, me}, fun() -> 8 end, all, 0) end])),
    {true, Q} = at(B, lock_and_wait, [{t, it}, all, 0]),
    expect("none without the lock", aborted, ask(A, trans, [{t, me}, fun() -> 9 end, all, 0])),
    at(B, kill, [Q]),
    Fails = fun() -> try yaltzumin:trans({t, it}, fun() -> throw(no) end) catch no -> failed end end,
    expect("one that fails", failed, ask(A, trans, [{t, it}, Fails])),
    expect("the lock behind it", true, ask(C, set_lock, [{t, other}, all, 5])),
    ok = at(C, keeper, []),
    Counts = [{Node, spawn_monitor(fun() -> exit({counted, at(Node, counted, [counter, 5, 10])}) end)} || Node <- Nodes],
    [receive {'DOWN', Ref, _, _, {counted, Ends}} -> expect("counted", [normal], lists:usort(Ends)) end || {_, {_, Ref}} <- Counts],
    expect("the count", 150, at(A, kept, [])),
    stopped(Nodes).

%% Processes are started again at once under their names.
restarts() ->
    [A, B, C] = Nodes = cluster(["g1", "g2", "g3"]),
    expect("restarts at once", [100, 100], [at(Node, restarted, [100]) || Node <- [A, C]]),
    [moves(A, B, {moves, Time}) || Time <- lists:seq(1, 30)],
    stopped(Nodes).
moves(A, B, Name) ->
    {ok, P} = at(A, started, [gen_server, Name, 1]),
    at(A, kill, [P]),
    until(fun() -> element(1, at(B, started, [gen_server, Name, 2])) =:= ok end).

%% Very many start a server of one name at each node at once.
starters() ->
    Nodes = cluster(["g1", "g2", "g3", "g4"]),
    Refs = [element(2, spawn_monitor(fun() -> exit({started, at(Node, starters, [{the, one}, 500])}) end)) || Node <- Nodes],
    Answers = [receive {'DOWN', Ref, _, _, {started, Answer}} -> Answer end || Ref <- Refs],
    Started = lists:append([Pids || {Pids, _} <- Answers]),
    expect("one was started", 1, length(Started)),
    expect("all others were told that", Started, lists:usort(lists:append([Told || {_, Told} <- Answers]))),
    expect("its name", Started, owners(Nodes, {the, one})),
    stopped(Nodes).

%% A node leaves in order, with names and locks.
leaves() ->
    [A, B, C] = cluster(["g1", "g2", "g3"]),
    {yes, P} = at(C, registered, [on_c]),
    {yes, _} = at(B, registered, [on_b]),
    {true, _} = at(C, lock_and_wait, [{printer, c}, all, 0]),
    expect("it leaves", ok, ask(C, leave, [])),
    settled([A, B]),
    gone([A, B], on_c),
    expect("its process lives", true, lives(C, P)),
    expect("its lock is free", true, ask(A, set_lock, [{printer, a}, all, 5])),
    {yes, _} = at(B, registered, [on_c]),
    expect("who has left has no names", {'EXIT', noproc}, exit_of(C)),
    call(B, init, stop, []),
    settled([A]),
    gone([A], on_b),
    {yes, _} = at(A, registered, [on_b]),
    stopped([A, B, C]).
exit_of(Node) ->
    try ask(Node, register_name, [x, call(Node, erlang, whereis, [init])])
    catch exit:{{exception, {noproc, _}} , _} -> {'EXIT', noproc};
          exit:{noproc, _} -> {'EXIT', noproc}
    end.

%% Nodes are killed while all register and lock by chance.
kills() ->
    Nodes = cluster(["g1", "g2", "g3", "g4"]),
    [at(Node, churn, [Seed]) || {Seed, Node} <- lists:zip([1, 2, 3, 4], Nodes)],
    Left = lists:foldl(fun killed/2, Nodes, [2, 3]),
    go_on(Left),
    churned(Left),
    {yes, P} = at(hd(Left), registered, [fin]),
    expect("a name in the end", [P], owners(Left, fin)),
    stopped(Left).
killed(Place, Nodes) ->
    go_on(Nodes),
    Node = lists:nth(Place, Nodes),
    kill(Node),
    Left = Nodes -- [Node],
    settled(Left),
    Left.
%% Each of the nodes goes on to register and to lock.
go_on(Nodes) ->
    Before = [{Node, at(Node, steps, [])} || Node <- Nodes],
    [until({goes_on, name(Node)}, fun() -> at(Node, steps, []) >= Steps + 50 end) || {Node, Steps} <- Before].
%% What is checked when they have stopped.
churned(Nodes) ->
    Holds = lists:append([at(Node, churned, []) || Node <- Nodes]),
    expect("no two held the lock at once", [], overlaps(lists:sort(Holds))),
    until(equal_tables, fun() -> are_equal(Nodes) end),
    expect("the lock is free", true, ask(hd(Nodes), set_lock, [{churned_lock, me}, all, 5])).
overlaps(Holds) ->
    [{One, Two} || {{_, End} = One, {Start, _} = Two} <- lists:zip(lists:droplast([{0, 0} | Holds]), Holds), Start < End].
%% Whether these nodes have the same names, all of processes that live.
are_equal(Nodes) ->
    case lists:usort([lists:sort(call(Node, ets, tab2list, [yaltzumin_names])) || Node <- Nodes]) of
        [Names] -> [] =:= [Name || {Name, Pid} <- Names, not lists:any(fun(Node) -> name(Node) =:= node(Pid) andalso lives(Node, Pid) end, Nodes)];
        _ -> false
    end.

%% The program of a node is killed: the others go on, and the next one of that node with them.
programs() ->
    [A, B, C] = Nodes = cluster(["g1", "g2", "g3"]),
    {yes, P} = at(C, registered, [on_c]),
    {yes, _} = at(A, registered, [on_a]),
    ok = at(C, asks_on, [50]),
    kill_program(C),
    expect("who asked there was answered by an exit", 50, length([Why || Why <- at(C, asked, []), Why =/= normal])),
    until(creation, fun() -> creation(C) end, <<"g3@localhost/2">>),
    settled(Nodes),
    owned(Nodes, on_c, P),
    expect("a name of another node", 1, length(owners([A, B], on_a))),
    stopped(Nodes).
kill_program(Node) ->
    signal(Node, "KILL").
%% Sends a signal to the program of a node.
signal(Node, Signal) ->
    _ = os:cmd("kill -" ++ Signal ++ " " ++ integer_to_list(program_pid(Node))),
    ok.
creation(Node) ->
    try maps:get(node, ask(Node, info, [])) catch _:_ -> none end.

%% The singleton of the example moves when its node is killed, and when its node leaves.
singleton() ->
    Nodes = cluster(["g1", "g2", "g3"]),
    [ok = at(Node, singleton, []) || Node <- Nodes],
    First = call(hd(Nodes), singleton, where, []),
    [Home] = [Node || Node <- Nodes, name(Node) =:= First],
    kill(Home),
    [A, B] = Left = Nodes -- [Home],
    until(fun() -> is_at(A, Left) andalso is_at(B, Left) end),
    Second = call(A, singleton, where, []),
    expect("one place", Second, call(B, singleton, where, [])),
    [Next] = [Node || Node <- Left, name(Node) =:= Second],
    call(Next, init, stop, []),
    [Last] = Left -- [Next],
    until(fun() -> is_at(Last, [Last]) end),
    stopped(Nodes).
is_at(Node, Nodes) ->
    try lists:member(call(Node, singleton, where, []), [name(It) || It <- Nodes]) catch _:_ -> false end.

%% What is refused at the start.
refusals() ->
    A = start("g1"),
    Refused = fun(World, Options) -> {error, {yaltzumin, Why}} = run(A, World, Options), lists:flatten(io_lib:format("~0p", [Why])) end,
    has(Refused(["g2", "g3"], []), "not_one_of"),
    has(Refused(["g" ++ integer_to_list(N) || N <- lists:seq(1, 9)], []), "more_than_eight"),
    has(Refused(["g1", "g2.example"], []), "not_short_names"),
    has(Refused(["g1"], [{founder, 'g2@localhost'}]), "founder_not_one_of"),
    ok = call(A, application, unset_env, [yaltzumin, founder]),
    has(Refused(["g1"], [{program, "/nowhere/cluster_main"}]), "enoent"),
    [has(Refused(["g1"], [{program, "false"}]), "program_ended") || _ <- lists:seq(1, 20)],
    ok = run(A, ["g1"]),
    {yes, P} = at(A, registered, [alone]),
    expect("a name of a cluster of one", P, ask(A, whereis_name, [alone])),
    stopped([A]).
has(Text, Word) ->
    expect(Text, true, string:find(Text, Word) =/= nomatch).

%% A node that was killed comes back under its name as the next of it.
returns() ->
    [A, B, C] = cluster(["g1", "g2", "g3"]),
    {yes, _} = at(C, registered, [on_c]),
    kill(C),
    gone([A, B], on_c),
    settled([A, B]),
    D = came_up(C),
    Nodes = [A, B, D],
    settled(Nodes),
    expect("its creation", <<"g3@localhost/2">>, creation(D)),
    {yes, P} = at(D, registered, [on_c]),
    expect("its name everywhere", [P], owners(Nodes, on_c)),
    [at(Node, churn, [Seed]) || {Seed, Node} <- lists:zip([1, 2, 3], Nodes)],
    Last = lists:foldl(fun killed_and_back/2, Nodes, [2, 3, 1, 3, 2]),
    go_on(Last),
    churned(Last),
    stopped(Last).
killed_and_back(Place, Nodes) ->
    go_on(Nodes),
    kill(lists:nth(Place, Nodes)),
    Now = [{_, Next} | _] = back(Place, Nodes),
    settled([Node || {_, Node} <- Now]),
    at(Next, churn, [Place]),
    [Node || {_, Node} <- lists:sort(Now)].
%% These nodes, where the one at this place came up again; it is the first, and each has its place.
back(Place, Nodes) ->
    [{Place, came_up(lists:nth(Place, Nodes))} | [Other || {It, _} = Other <- lists:zip(lists:seq(1, length(Nodes)), Nodes), It =/= Place]].
%% A node that was killed is started again, in the same world.
came_up(Node) ->
    came_up(Node, ["g1", "g2", "g3"]).
came_up(Node, World) ->
    Next = start(hd(string:lexemes(atom_to_list(name(Node)), "@"))),
    ok = run(Next, World),
    Next.

%% A cluster that lives on while its nodes go one after another, and come back: killed in one round, and in order in the next. None of those that
%% it began with is left then, and who registers a name has it everywhere.
lives() ->
    Nodes = cluster(["g1", "g2", "g3"]),
    Last = lists:foldl(fun lives_on/2, Nodes, lists:seq(1, 10)),
    expect("their creations", [<<"g1@localhost/11">>, <<"g2@localhost/11">>, <<"g3@localhost/11">>], [creation(Node) || Node <- Last]),
    stopped(Last).
lives_on(Round, Nodes) ->
    lists:foldl(fun(Place, It) -> named_by_all(Round, It), next_of(Round rem 2, Place, It) end, Nodes, [1, 3, 2]).
next_of(Kind, Place, Nodes) ->
    Node = lists:nth(Place, Nodes),
    Others = Nodes -- [Node],
    case Kind of
        1 -> kill(Node);
        0 -> ok = ask(Node, leave, []), stop(Node)
    end,
    settled(Others),
    gone(Others, {lives, Place}),
    Now = back(Place, Nodes),
    settled([It || {_, It} <- Now]),
    [It || {_, It} <- lists:sort(Now)].
named_by_all(Round, Nodes) ->
    Named = [{Place, named(Place, Node, Nodes)} || {Place, Node} <- lists:zip([1, 2, 3], Nodes)],
    [expect({"a name of round", Round}, [Pid], owners(Nodes, {lives, Place})) || {Place, Pid} <- Named].
%% The process that has the name of a place, which may be there from a turn before.
named(Place, Node, Nodes) ->
    case owners(Nodes, {lives, Place}) of
        [undefined] -> {yes, Pid} = at(Node, registered, [{lives, Place}]), Pid;
        [Pid] -> Pid
    end.

%% Nobody is left who saw the first nodes go: the names come back all the same, since who starts is told by those that are there.
forgets() ->
    [A, B] = cluster(["g1", "g2"]),
    kill(A),
    settled([B]),
    A2 = came_up(A, ["g1", "g2"]),
    settled([A2, B]),
    kill(B),
    settled([A2]),
    B2 = came_up(B, ["g1", "g2"]),
    settled([A2, B2]),
    kill(A2),
    settled([B2]),
    A3 = came_up(A, ["g1", "g2"]),
    settled([A3, B2]),
    expect("their creations", [<<"g1@localhost/3">>, <<"g2@localhost/2">>], [creation(Node) || Node <- [A3, B2]]),
    {yes, P} = at(A3, registered, [on_a]),
    owned([A3, B2], on_a, P),
    stopped([A3, B2]),
    %% Where all have ended, all begin as first nodes.
    [A4, B4] = cluster(["g1", "g2"]),
    expect("their creations again", [<<"g1@localhost">>, <<"g2@localhost">>], [creation(Node) || Node <- [A4, B4]]),
    stopped([A4, B4]).

%% All connections of a node are cut, and can't be had: each side goes on by itself. When they can be had again the lesser side starts
%% anew.
cuts() ->
    [A, B, C] = Nodes = cluster(["g1", "g2", "g3"]),
    {yes, P} = at(C, registered, [on_c]),
    ok = at(C, cut_off, [[name(A), name(B)]]),
    settled([C]),
    settled([A, B]),
    {yes, _} = at(C, registered, [both]),
    {yes, Q} = at(A, registered, [both]),
    [call(C, erlang, set_cookie, [name(Node), yaltzumin]) || Node <- [A, B]],
    begun_anew(C, [A, B]),
    owned(Nodes, on_c, P),
    owned(Nodes, both, Q),
    stopped(Nodes).

%% A node starts anew, and is joined with these again.
begun_anew(Node, Others) ->
    settled(Others ++ [Node]),
    expect("its creation", <<(atom_to_binary(name(Node)))/binary, "/2">>, creation(Node)).

%% The connection between two nodes is torn while a third sees both: one of them can't stay, and the others go on as one cluster.
torn() ->
    [A, B, C] = Nodes = cluster(["g1", "g2", "g3"]),
    {yes, P} = at(A, registered, [on_a]),
    {yes, Q} = at(C, registered, [on_c]),
    {true, _} = at(C, lock_and_wait, [{printer, c}, all, 0]),
    ok = at(C, cut_off, [[name(A)]]),
    settled([A, B]),
    gone([A, B], on_c),
    {yes, R} = at(A, registered, [meanwhile]),
    expect("the lock is free", true, ask(B, set_lock, [{printer, b}, all, 5])),
    call(C, erlang, set_cookie, [name(A), yaltzumin]),
    pong = call(C, net_adm, ping, [name(A)]),
    begun_anew(C, [A, B]),
    owned(Nodes, on_c, Q),
    owned(Nodes, on_a, P),
    owned(Nodes, meanwhile, R),
    stopped(Nodes).

%% A node dies in the middle of a write, which came to one member and not to another: it comes to both. So is it with an admission. Where the
%% joiner heard of it and no member did, or the other way about, the joiner starts anew.
writes() ->
    World = ["g1", "g2", "g3", "g4", "g5"],
    [A, B, C, E] = cluster(["g1", "g2", "g3", "g5"], World),
    {yes, _} = at(C, registered, [moves]),
    Q = at(E, owner, []),
    ok = at(A, dies_writing, [<<"put">>, name(C)]),
    dies(A, fun() -> ask(A, re_register_name, [moves, Q]) end),
    settled([B, C, E]),
    owned([B, C, E], moves, Q),
    D = start("g4"),
    ok = run(D, World, [{connect, false}]),
    {yes, R} = at(D, registered, [on_d]),
    ok = at(B, dies_writing, [<<"admit">>, name(C)]),
    dies(B, fun() -> ask(D, join, [name(C), infinity]) end),
    settled([C, D, E]),
    owned([C, D, E], on_d, R),
    stopped([C, D, E]),
    admission_lost(),
    welcome_lost().
admission_lost() ->
    World = ["g1", "g2", "g3"],
    [A, B] = cluster(["g1", "g2"], World),
    C = start("g3"),
    ok = run(C, World, [{connect, false}]),
    ok = at(A, dies_writing, [<<"admit">>, name(B)]),
    dies(A, fun() -> ask(C, join, [name(A), infinity]) end),
    begun_anew(C, [B]),
    {yes, _} = at(B, registered, [behind_it]),
    stopped([B, C]).
welcome_lost() ->
    World = ["g1", "g2", "g3"],
    [A, B] = cluster(["g1", "g2"], World),
    %% Its admission waits for the program of another member.
    signal(B, "STOP"),
    C = start("g3"),
    ok = run(C, World),
    until(asks_to_join, fun() -> maps:get(calls, ask(C, info, [])) end, 1),
    timer:sleep(200),
    ok = at(A, dies_writing, [<<"welcome">>, name(C)]),
    dies(A, fun() -> signal(B, "CONT") end),
    begun_anew(C, [B]),
    {yes, _} = at(B, registered, [behind_it]),
    stopped([B, C]).
%% A node dies of what is asked meanwhile, whose answer nobody waits for.
dies({Peer, _}, Ask) ->
    unlink(Peer),
    Ref = monitor(process, Peer),
    spawn(Ask),
    receive {'DOWN', Ref, _, _, _} -> ok end.

%% Nodes and programs are killed by chance while all register and lock, and come back: as many clusters as the environment tells, or two. In each
%% of five nodes six are killed, the next one now and then before the others have settled.
chances() ->
    Clusters = list_to_integer(os:getenv("YALTZUMIN_CLUSTERS", "2")),
    From = list_to_integer(os:getenv("YALTZUMIN_SEED", "1")),
    lists:foreach(fun chance/1, lists:seq(From, From + Clusters - 1)).
chance(Seed) ->
    try
        rand:seed(exsss, Seed),
        Nodes = cluster(["g1", "g2", "g3", "g4", "g5"]),
        [at(Node, churn, [Seed * 10 + Place]) || {Place, Node} <- lists:zip(lists:seq(1, 5), Nodes)],
        Last = lists:foldl(fun killed_by_chance/2, Nodes, lists:seq(1, 6)),
        settled(Last),
        go_on(Last),
        churned(Last),
        {yes, P} = at(hd(Last), registered, [fin]),
        expect("a name in the end", [P], owners(Last, fin)),
        stopped(Last)
    of _ ->
        io:format("seed ~w: well~n", [Seed])
    catch
        error:Why:Where -> erlang:raise(error, {{seed, Seed}, Why}, Where)
    end.
killed_by_chance(Time, Nodes) ->
    timer:sleep(rand:uniform(300)),
    Place = rand:uniform(length(Nodes)),
    Node = lists:nth(Place, Nodes),
    Next = case rand:uniform(3) of
        1 ->
            %% What registers and locks there goes on, once the next server is there.
            kill_program(Node),
            Node;
        _ ->
            kill(Node),
            It = came_up(Node, ["g1", "g2", "g3", "g4", "g5"]),
            at(It, churn, [Time]),
            It
    end,
    Now = lists:sublist(Nodes, Place - 1) ++ [Next | lists:nthtail(Place, Nodes)],
    _ = rand:uniform(3) =:= 1 orelse settled(Now),
    Now.
