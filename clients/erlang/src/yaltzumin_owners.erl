%% @doc The processes of this node that its program knows, each under a text of its own.
-module(yaltzumin_owners).
-export([new/0, count/1, find/2, add/2, watch/2, wait/3, spawned/3, ended/2]).

-export_type([owners/1]).

-opaque owners(Then) :: #{pid() => {text() | spawning | ended, reference() | none, [Then]}}.
%% A process is being spawned until the program has told its text; what waits for that, the last first.

-type text() :: yaltzumin_text:text().

%% @doc No process.
-spec new() -> owners(_).
new() -> #{}.

%% @doc How many there are.
-spec count(owners(_)) -> non_neg_integer().
count(Owners) -> map_size(Owners).

%% @doc The text of a process.
-spec find(pid(), owners(_)) -> {ok, text()} | spawning | none.
find(Pid, Owners) ->
    case Owners of
        #{Pid := {Text, _, _}} when is_binary(Text) -> {ok, Text};
        #{Pid := _} -> spawning;
        _ -> none
    end.

%% @doc A process is being spawned.
-spec add(pid(), owners(Then)) -> owners(Then).
add(Pid, Owners) ->
    Owners#{Pid => {spawning, none, []}}.

%% @doc A process is watched from now on.
-spec watch(pid(), owners(Then)) -> owners(Then).
watch(Pid, Owners) ->
    maps:update_with(Pid, fun({Text, none, Waiting}) -> {Text, monitor(process, Pid), Waiting} end, Owners).

%% @doc Something waits until the text of a process that is being spawned is told.
-spec wait(pid(), Then, owners(Then)) -> owners(Then).
wait(Pid, Then, Owners) ->
    maps:update_with(Pid, fun({Text, Ref, Waiting}) -> {Text, Ref, [Then | Waiting]} end, Owners).

%% @doc The text of a process is told. Gives what waited for it, the first first, and whether the process has ended meanwhile.
-spec spawned(pid(), text(), owners(Then)) -> {[Then], runs | ended, owners(Then)}.
spawned(Pid, Text, Owners) ->
    case Owners of
        #{Pid := {ended, _, Waiting}} -> {lists:reverse(Waiting), ended, maps:remove(Pid, Owners)};
        #{Pid := {spawning, Ref, Waiting}} -> {lists:reverse(Waiting), runs, Owners#{Pid := {Text, Ref, []}}}
    end.

%% @doc A process has ended. Gives its text, where the program is to be told.
-spec ended(pid(), owners(Then)) -> {text() | none, owners(Then)}.
ended(Pid, Owners) ->
    case Owners of
        #{Pid := {spawning, Ref, Waiting}} ->
            {none, Owners#{Pid := {ended, Ref, Waiting}}};
        #{Pid := {Text, Ref, _}} when is_binary(Text) ->
            demonitor(Ref, [flush]),
            {Text, maps:remove(Pid, Owners)};
        _ ->
            {none, Owners}
    end.
