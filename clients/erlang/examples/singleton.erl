%% A server that runs once in the cluster. Each node's supervisor starts it; where it runs already there is a standby instead, which
%% ends when the name is free again, so that the supervisor starts the server anew.
-module(singleton).
-behaviour(gen_server).
-export([start_link/0, where/0]).
-export([init/1, handle_call/3, handle_cast/2]).

-define(NAME, {via, yaltzumin, ?MODULE}).

start_link() ->
    case gen_server:start_link(?NAME, ?MODULE, [], []) of
        {error, {already_started, Pid}} -> {ok, proc_lib:spawn_link(fun() -> stand_by(Pid) end)};
        Started -> Started
    end.

%% The node where it runs.
where() ->
    gen_server:call(?NAME, where).

stand_by(Pid) when is_pid(Pid) ->
    Ref = monitor(process, Pid),
    receive {'DOWN', Ref, process, Pid, _} -> wait_until_free(Pid) end;
stand_by(undefined) ->
    %% It ended just then.
    exit({shutdown, free}).

%% The process is dead; its name goes a moment later.
wait_until_free(Pid) ->
    case yaltzumin:whereis_name(?MODULE) of
        Pid -> timer:sleep(10), wait_until_free(Pid);
        _ -> exit({shutdown, free})
    end.

init([]) ->
    {ok, []}.

handle_call(where, _From, State) ->
    {reply, node(), State}.

handle_cast(_, State) ->
    {noreply, State}.
