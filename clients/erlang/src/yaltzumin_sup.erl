%% @doc The supervisor of the server of this node. It owns the tables, so look-ups go on, and names of this node's processes can be
%% registered anew, when the server starts again.
-module(yaltzumin_sup).
-behaviour(supervisor).
-export([start_link/1]).
-export([init/1]).

%% Within this time (in milliseconds) the server leaves its cluster in order when it is told to end.
-define(LEAVING, 5000).

%% @doc Starts the supervisor, and the server with these options.
-spec start_link(yaltzumin_server:options()) -> {ok, pid()} | {error, term()}.
start_link(Options) ->
    supervisor:start_link({local, ?MODULE}, ?MODULE, Options).

%% @private
-spec init(yaltzumin_server:options()) -> {ok, {supervisor:sup_flags(), [supervisor:child_spec()]}}.
init(Options) ->
    ok = yaltzumin_table:new(),
    Server = #{id => yaltzumin_server,
               start => {yaltzumin_server, start_link, [Options]},
               shutdown => ?LEAVING},
    %% An attempt may take some seconds, where a machine doesn't answer: those that fail are to be too many all the same.
    {ok, {#{strategy => one_for_one, intensity => 5, period => 120}, [Server]}}.
