%% @doc The application. It reads its environment (see {@link yaltzumin}) and starts the supervisor.
-module(yaltzumin_app).
-behaviour(application).
-export([start/2, stop/1]).

%% @doc Starts the supervisor of the server of this node.
-spec start(application:start_type(), term()) -> {ok, pid()} | {error, term()}.
start(_Type, _Args) ->
    yaltzumin_sup:start_link(options()).

%% @doc Does nothing: the server leaves its cluster when it ends.
-spec stop(term()) -> ok.
stop(_State) ->
    ok.

options() ->
    {ok, Program} = application:get_env(yaltzumin, program),
    {ok, Nodes} = application:get_env(yaltzumin, nodes),
    {ok, Connects} = application:get_env(yaltzumin, connect),
    Founder = application:get_env(yaltzumin, founder, first(Nodes)),
    #{program => Program, nodes => lists:usort(Nodes), founder => Founder, connect => Connects}.

first([Node | _]) -> Node;
first([]) -> undefined.
