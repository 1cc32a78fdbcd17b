%% The supervisor of a singleton. One at each node.
-module(singleton_sup).
-behaviour(supervisor).
-export([start_link/0]).
-export([init/1]).

start_link() ->
    supervisor:start_link({local, ?MODULE}, ?MODULE, []).

init([]) ->
    {ok, {#{intensity => 10, period => 10}, [#{id => singleton, start => {singleton, start_link, []}}]}}.
