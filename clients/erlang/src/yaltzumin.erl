%% @doc Cluster-wide names and locks, as those of `global', for up to eight Erlang nodes without a server: each node runs a proved program,
%% and Erlang's distribution carries the letters between them. The module serves as a registry for every OTP behaviour:
%% `gen_server:start_link({via, yaltzumin, Name}, ..)'.
%%
%% The application's environment has `nodes', all nodes of the cluster, the same at each of them, and `program', the path of
%% `cluster_main'. The first of `nodes' founds the cluster, or the node that `founder' tells; all others join it when they meet it.
%%
%% Every call exits with `{noproc, _}' where the application doesn't run at this node, with the reason of the server's end where that comes
%% before the answer, and with `{yaltzumin, Word}' where the program refuses it with that word, as when its numbers are spent.
-module(yaltzumin).
-export([register_name/2, register_name/3, re_register_name/2, re_register_name/3, unregister_name/1]).
-export([whereis_name/1, registered_names/0, send/2]).
-export([set_lock/1, set_lock/2, set_lock/3, del_lock/1, del_lock/2, trans/2, trans/3, trans/4]).
-export([join/1, join/2, leave/0, sync/0, sync/1, members/0, is_joined/0, info/0]).

-export_type([name/0, rule/0, id/0, retries/0]).

-type name() :: term().
%% Any term.
-type rule() :: exit | notify | notify_all | fun((name(), pid(), pid()) -> pid() | none).
%% What happens where two clusters meet that both have the name: the process on the lesser node keeps it and the other is killed, or is
%% sent `{global_name_conflict, Name}'; or nobody has the name, and both are sent `{global_name_conflict, Name, OtherPid}'. Of functions
%% only `fun global:random_exit_name/3', `fun global:random_notify_name/3' and `fun global:notify_all_name/3' may stand there, and mean these.
-type id() :: {Resource :: term(), Requester :: term()}.
%% A lock: at most one requester has the resource. Grants are counted for each process that set it.
-type retries() :: non_neg_integer() | infinity.

%% So long is waited for other nodes where nothing else is told, in milliseconds.
-define(SYNCHRONIZING, 5000).

%% @equiv register_name(Name, Pid, exit)
-spec register_name(name(), pid()) -> yes | no.
register_name(Name, Pid) ->
    register_name(Name, Pid, exit).

%% @doc Gives a name to a process, of this node or of another member. `no' where the name has an owner, where the process has a name, or
%% where its node is no member. Behind `yes' every member's table has it.
-spec register_name(name(), pid(), rule()) -> yes | no.
register_name(Name, Pid, Rule) when is_pid(Pid) ->
    names(register, Name, Pid, rule(Rule)).

%% @equiv re_register_name(Name, Pid, exit)
-spec re_register_name(name(), pid()) -> yes | no.
re_register_name(Name, Pid) ->
    re_register_name(Name, Pid, exit).

%% @doc Gives a name to a process, whoever has it, and whether that has others or not. `no' where its node is no member.
-spec re_register_name(name(), pid(), rule()) -> yes | no.
re_register_name(Name, Pid, Rule) when is_pid(Pid) ->
    names(re_register, Name, Pid, rule(Rule)).

%% @doc Takes a name from whoever has it.
-spec unregister_name(name()) -> ok.
unregister_name(Name) ->
    call({unregister, yaltzumin_text:of_term(Name), Name}).

%% @doc The process that owns a name, by this node's own table; one of this node that is dead owns none. It asks nobody.
-spec whereis_name(name()) -> pid() | undefined.
whereis_name(Name) ->
    case yaltzumin_table:owner(Name) of
        Pid when node(Pid) =:= node() ->
            case is_process_alive(Pid) of
                true -> Pid;
                false -> undefined
            end;
        Owner ->
            Owner
    end.

%% @doc All names in this node's own table.
-spec registered_names() -> [name()].
registered_names() ->
    yaltzumin_table:names().

%% @doc Sends a message to the process that owns a name. Exits with `{badarg, {Name, Message}}' where nobody does.
-spec send(name(), Message :: term()) -> pid().
send(Name, Message) ->
    case whereis_name(Name) of
        undefined -> exit({badarg, {Name, Message}});
        Pid -> Pid ! Message, Pid
    end.

%% @equiv set_lock(Id, all, infinity)
-spec set_lock(id()) -> boolean().
set_lock(Id) ->
    set_lock(Id, all).

%% @equiv set_lock(Id, Nodes, infinity)
-spec set_lock(id(), all | [node()]) -> boolean().
set_lock(Id, Nodes) ->
    set_lock(Id, Nodes, infinity).

%% @doc Locks a resource for a requester, at all members or at those of these nodes, for the process that calls. It tries so many times
%% more, with random pauses, and then answers `false'; with `infinity' it waits. `false' where none of the nodes is a member. The lock is
%% given back when it was deleted as often as it was set, or when the process ends.
-spec set_lock(id(), all | [node()], retries()) -> boolean().
set_lock({Resource, Requester}, Nodes, Retries) when Retries =:= infinity; is_integer(Retries), Retries >= 0 ->
    try_lock(yaltzumin_text:of_resource(Resource), yaltzumin_text:of_term(Requester), asked(Nodes), Retries, 1).

try_lock(Resource, Requester, Nodes, infinity, _) ->
    lock(Resource, Requester, Nodes, <<"infinity">>);
try_lock(Resource, Requester, Nodes, Retries, Try) ->
    case lock(Resource, Requester, Nodes, <<"0">>) of
        false when Retries > 0 ->
            timer:sleep(pause(Try)),
            try_lock(Resource, Requester, Nodes, Retries - 1, Try + 1);
        Answer ->
            Answer
    end.

%% As long as `global' pauses: a quarter of a second at most the first time, and each time twice as long, up to eight seconds.
pause(Try) ->
    rand:uniform(250 bsl min(5, Try - 1)).

lock(Resource, Requester, Nodes, Retries) ->
    case call({set_lock, Resource, Requester, Nodes, Retries}) of
        %% One of the nodes has left just now: it is asked at those that are members still.
        {error, unknown_node} -> lock(Resource, Requester, Nodes, Retries);
        {error, Word} -> exit({?MODULE, Word});
        Answer -> Answer
    end.

%% @equiv del_lock(Id, all)
-spec del_lock(id()) -> true.
del_lock(Id) ->
    del_lock(Id, all).

%% @doc Takes back one time that the calling process has set a lock, at all members or at those of these nodes.
-spec del_lock(id(), all | [node()]) -> true.
del_lock({Resource, Requester}, Nodes) ->
    _ = call({del_lock, yaltzumin_text:of_resource(Resource), yaltzumin_text:of_term(Requester), asked(Nodes)}),
    true.

asked(all) -> all;
asked(Nodes) -> lists:usort(Nodes).

%% @equiv trans(Id, Fun, all, infinity)
-spec trans(id(), fun(() -> Result)) -> Result | aborted.
trans(Id, Fun) ->
    trans(Id, Fun, all).

%% @equiv trans(Id, Fun, Nodes, infinity)
-spec trans(id(), fun(() -> Result), all | [node()]) -> Result | aborted.
trans(Id, Fun, Nodes) ->
    trans(Id, Fun, Nodes, infinity).

%% @doc Sets a lock, calls a function, and deletes the lock, whatever came of it. `aborted' where the lock isn't had. One may stand in
%% another.
-spec trans(id(), fun(() -> Result), all | [node()], retries()) -> Result | aborted.
trans(Id, Fun, Nodes, Retries) ->
    case set_lock(Id, Nodes, Retries) of
        true ->
            try Fun()
            after del_lock(Id, Nodes)
            end;
        false ->
            aborted
    end.

%% @equiv join(Node, 5000)
-spec join(node()) -> ok | {error, not_connected | timeout}.
join(Node) ->
    join(Node, ?SYNCHRONIZING).

%% @doc Connects to a node, and waits until both are members of one cluster, for so many milliseconds. Nodes that are connected join by
%% themselves, so it is of use where `connect' is off, or to wait.
-spec join(node(), timeout()) -> ok | {error, not_connected | timeout}.
join(Node, Timeout) ->
    case net_kernel:connect_node(Node) of
        true -> synchronize([Node], Timeout);
        _ -> {error, not_connected}
    end.

%% @doc Leaves the cluster in order, by the end of the application at this node.
-spec leave() -> ok | {error, term()}.
leave() ->
    application:stop(yaltzumin).

%% @equiv sync(5000)
-spec sync() -> ok | {error, timeout}.
sync() ->
    sync(?SYNCHRONIZING).

%% @doc Waits until this node is joined, and with each node that is connected and runs this application, for so many milliseconds.
-spec sync(timeout()) -> ok | {error, timeout}.
sync(Timeout) ->
    Nodes = nodes(),
    Servers = erpc:multicall(Nodes, erlang, whereis, [yaltzumin_server], Timeout),
    synchronize([Node || {Node, {ok, Server}} <- lists:zip(Nodes, Servers), is_pid(Server)], Timeout).

synchronize(Nodes, Timeout) ->
    try gen_server:call(yaltzumin_server, {synchronize, Nodes, Timeout}, Timeout)
    catch exit:{timeout, _} -> {error, timeout}
    end.

%% @doc The nodes that this one counts as members of its cluster, itself among them.
-spec members() -> [node()].
members() ->
    maps:get(members, info()).

%% @doc Whether this node has founded or joined the cluster. A node that hasn't has names and locks of its own.
-spec is_joined() -> boolean().
is_joined() ->
    maps:get(joined, info()).

%% @doc How this node stands.
-spec info() -> yaltzumin_server:info().
info() ->
    call(info).

names(Word, Name, Pid, Rule) when node(Pid) =:= node() ->
    named(call({Word, yaltzumin_text:of_term(Name), Name, Pid, Rule}));
names(Word, Name, Pid, Rule) ->
    %% The server of the process's own node knows what it is called.
    try gen_server:call({yaltzumin_server, node(Pid)}, {text_of, Pid}, infinity) of
        Text -> named(call({Word, yaltzumin_text:of_term(Name), Name, {Pid, Text}, Rule}))
    catch
        exit:_ -> no
    end.

named({error, Word}) when Word =/= unknown_node, Word =/= not_live -> exit({?MODULE, Word});
named(yes) -> yes;
%% The name has an owner, the process has a name or has died, or its node is no member.
named(_) -> no.

rule(exit) -> <<"exit">>;
rule(notify) -> <<"notify">>;
rule(notify_all) -> <<"notify_all">>;
rule(Fun) when is_function(Fun, 3) ->
    case lists:member(Fun, [fun global:random_exit_name/3, fun global:random_notify_name/3, fun global:notify_all_name/3]) of
        true -> rule_of(element(2, erlang:fun_info(Fun, name)));
        false -> error(badarg, [Fun])
    end.

rule_of(random_exit_name) -> <<"exit">>;
rule_of(random_notify_name) -> <<"notify">>;
rule_of(notify_all_name) -> <<"notify_all">>.

call(Request) ->
    gen_server:call(yaltzumin_server, Request, infinity).
