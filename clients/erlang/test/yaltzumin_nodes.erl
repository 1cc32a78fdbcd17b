%% Real nodes of this machine, started by a controller that is no node itself, and calls at them.
-module(yaltzumin_nodes).
-export([start/1, stop/1, kill/1, world/1, run/2, run/3, cluster/1, cluster/2, call/4, name/1]).
-export([settled/1, until/1, until/2, until/3, program_pid/1, expect/3]).

%% How long a node is waited for, what has to come about, and a call at a node, in milliseconds. It is for a cluster that is stuck: how
%% loaded the machine is mustn't matter.
-define(MEANWHILE, 1000 * list_to_integer(os:getenv("YALTZUMIN_SECONDS", "600"))).

%% Starts a node of this machine, with the code that the controller has.
start(Name) ->
    Folder = filename:dirname(code:which(?MODULE)),
    {ok, Peer, Node} =
        peer:start(#{name => Name, host => "localhost", connection => standard_io, wait_boot => ?MEANWHILE,
                     args => ["-pa", Folder, "-start_epmd", "false", "-setcookie", "yaltzumin", "+S", "2:2", "+sbwt", "none",
                              "-kernel", "inet_dist_use_interface", "{127,0,0,1}", "-kernel", "logger_level", os:getenv("YALTZUMIN_LOG", "emergency"),
                              "-kernel", "prevent_overlapping_partitions", "false"]}),
    {Peer, Node}.

stop({Peer, _}) ->
    catch peer:stop(Peer),
    ok.

%% Kills a node without a word, and waits until its controller knows.
kill({Peer, _} = Node) ->
    Pid = call(Node, os, getpid, []),
    unlink(Peer),
    Ref = monitor(process, Peer),
    _ = os:cmd("kill -9 " ++ Pid),
    receive {'DOWN', Ref, _, _, _} -> ok end.

name({_, Node}) -> Node.

call({Peer, _}, Module, Function, Arguments) ->
    peer:call(Peer, Module, Function, Arguments, ?MEANWHILE).

%% The nodes of a cluster, from their short names.
world(Names) ->
    [list_to_atom(Name ++ "@localhost") || Name <- Names].

%% Starts the application at a node.
run(Node, World) ->
    run(Node, World, []).

run(Node, World, Options) ->
    _ = call(Node, application, load, [yaltzumin]),
    Environment = [{program, os:getenv("YALTZUMIN_PROGRAM")}, {nodes, world(World)} | Options],
    [ok = call(Node, application, set_env, [yaltzumin, Key, Value]) || {Key, Value} <- Environment],
    case call(Node, application, ensure_all_started, [yaltzumin]) of
        {ok, _} -> ok;
        Other -> Other
    end.

%% Nodes that are joined.
cluster(Names) ->
    cluster(Names, Names).

cluster(Names, World) ->
    Nodes = [start(Name) || Name <- Names],
    [ok = run(Node, World) || Node <- Nodes],
    settled(Nodes),
    Nodes.

%% Waits until these nodes are the members of one cluster.
settled(Nodes) ->
    All = lists:sort([Name || {_, Name} <- Nodes]),
    until({settled, All}, fun() -> [{name(Node), Info} || Node <- Nodes, Info <- [info(Node)], not is_settled(Info, All)] end, []).

%% How a node stands, or why it can't tell: its server may be starting again.
info(Node) ->
    try call(Node, yaltzumin, info, []) catch _:Why -> {none, Why} end.

is_settled(#{joined := Joined, members := Members}, All) ->
    Joined andalso lists:sort(Members) =:= All;
is_settled(_, _) ->
    false.

%% Waits until this holds.
until(Holds) ->
    until(condition, Holds).

until(What, Holds) ->
    until(What, Holds, true).

%% Waits until this gives what is wanted.
until(What, Gives, Wanted) ->
    until(What, Gives, Wanted, erlang:monotonic_time(millisecond) + ?MEANWHILE).

until(What, Gives, Wanted, Until) ->
    case Gives() of
        Wanted ->
            ok;
        Found ->
            erlang:monotonic_time(millisecond) < Until orelse error({What, {wanted, Wanted}, {found_last, Found}}),
            timer:sleep(10),
            until(What, Gives, Wanted, Until)
    end.

%% The process of the system that runs a node's program.
program_pid(Node) ->
    State = call(Node, sys, get_state, [yaltzumin_server]),
    {os_pid, Pid} = call(Node, erlang, port_info, [element(2, State), os_pid]),
    Pid.

expect(_, Wanted, Wanted) -> ok;
expect(What, Wanted, Found) -> error({What, {wanted, Wanted}, {found, Found}}).
