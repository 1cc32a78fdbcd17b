%% @doc What a node's server knows of names and processes, as tables that the supervisor owns: the names with their owners, in which
%% {@link yaltzumin:whereis_name/1} looks, and which term or process a text of the program stands for.
-module(yaltzumin_table).
-compile({no_auto_import, [put/2]}).
-export([new/0]).
-export([owner/1, names/0, own_names/0]).
-export([put/2, remove/1, strike/1, drop/1, replace/1, clear/0]).
-export([learn_term/2, learn_pid/2, learn/1, known/1, term_of/1, pid_of/1, find_pid/1, sweep/1]).

-export_type([known/0]).

-type text() :: yaltzumin_text:text().
-type known() :: {term, text(), term()} | {pid, text(), pid()}.
%% What a text stands for.

-define(NAMES, yaltzumin_names).    % {Name, Owner}
-define(ROWS, yaltzumin_rows).      % {text of a name, text of its owner, Name}
-define(OWNED, yaltzumin_owned).    % {{text of a node, text of a process of it, text of a name of that}}
-define(TERMS, yaltzumin_terms).    % {text, term, when it was learned or lost last}: of hashes alone
-define(PIDS, yaltzumin_pids).      % {text, pid, when it was learned or lost last}
-define(DUE, yaltzumin_due).        % {{when to look whether it is wanted still, a number}, term or pid, text}

%% For so many seconds at least it is known what a text stands for that is in no row: a letter that has it may be under way.
-define(KEPT, 3600).

%% @doc Makes the tables, which are the caller's.
-spec new() -> ok.
new() ->
    [ets:new(Table, [set, named_table, public, {read_concurrency, true}]) || Table <- [?NAMES, ?ROWS, ?TERMS, ?PIDS]],
    [ets:new(Table, [ordered_set, named_table, public]) || Table <- [?OWNED, ?DUE]],
    ok.

%% @doc The process that owns a name, if one does.
-spec owner(Name :: term()) -> pid() | undefined.
owner(Name) ->
    try ets:lookup(?NAMES, Name) of
        [{_, Owner}] -> Owner;
        [] -> undefined
    catch
        error:badarg -> exit({noproc, ?MODULE})
    end.

%% @doc All names.
-spec names() -> [Name :: term()].
names() ->
    try ets:select(?NAMES, [{{'$1', '_'}, [], ['$1']}])
    catch error:badarg -> exit({noproc, ?MODULE})
    end.

%% @doc The names that processes of this node own which live.
-spec own_names() -> [{Name :: term(), pid()}].
own_names() ->
    [{Name, Owner} || {Name, Owner} <- ets:tab2list(?NAMES), node(Owner) =:= node(), is_process_alive(Owner)].

%% @doc A name has this owner now.
-spec put(Name :: text(), Owner :: text()) -> ok.
put(Name, Owner) ->
    Term = term_of(Name),
    ets:insert(?NAMES, {Term, pid_of(Owner)}),
    forget_row(Name),
    ets:insert(?ROWS, {Name, Owner, Term}),
    ets:insert(?OWNED, {{yaltzumin_text:node_of_pid(Owner), Owner, Name}}),
    ok.

%% @doc Nobody has a name now. Nothing, where nobody had it: then what its text stands for need not be known.
-spec remove(Name :: text()) -> ok.
remove(Name) ->
    case forget_row(Name) of
        {ok, Term} ->
            ets:delete(?NAMES, Term),
            lost(?TERMS, Name),
            ok;
        none ->
            ok
    end.

%% @doc A process has no name now.
-spec strike(Process :: text()) -> ok.
strike(Process) ->
    remove_all({yaltzumin_text:node_of_pid(Process), Process, '$1'}).

%% @doc No process of a node has a name now.
-spec drop(Node :: text()) -> ok.
drop(Node) ->
    remove_all({Node, '_', '$1'}).

remove_all(Key) ->
    lists:foreach(fun remove/1, ets:select(?OWNED, [{{Key}, [], ['$1']}])).

%% @doc These are all names now, each with its owner. A look-up finds a name as it was before, or as it is then.
-spec replace([{Name :: text(), Owner :: text()}]) -> ok.
replace(Pairs) ->
    lists:foreach(fun({Name, Owner}) -> put(Name, Owner) end, Pairs),
    Now = maps:from_list(Pairs),
    lists:foreach(fun remove/1, [Name || {Name, _, _} <- ets:tab2list(?ROWS), not is_map_key(Name, Now)]).

%% @doc No name is left.
-spec clear() -> ok.
clear() ->
    lists:foreach(fun ets:delete_all_objects/1, [?NAMES, ?ROWS, ?OWNED]).

%% Takes the row of a name out, and gives the term that the name is.
forget_row(Name) ->
    case ets:take(?ROWS, Name) of
        [{_, Owner, Term}] ->
            ets:delete(?OWNED, {yaltzumin_text:node_of_pid(Owner), Owner, Name}),
            lost(?PIDS, Owner),
            {ok, Term};
        [] ->
            none
    end.

%% @doc A text stands for this term.
-spec learn_term(text(), term()) -> ok.
learn_term(Text, Term) ->
    case yaltzumin_text:is_hash(Text) of
        true -> learned(?TERMS, Text, Term);
        false -> ok
    end.

%% @doc A text stands for this process.
-spec learn_pid(text(), pid()) -> ok.
learn_pid(Text, Pid) ->
    learned(?PIDS, Text, Pid).

%% @doc Learns what texts stand for.
-spec learn([known()]) -> ok.
learn(Known) ->
    lists:foreach(fun({term, Text, Term}) -> learn_term(Text, Term);
                     ({pid, Text, Pid}) -> learn_pid(Text, Pid)
                  end, Known).

%% @doc What the texts of a letter stand for that its reader may not know.
-spec known(Letter :: binary()) -> [known()].
known(Letter) ->
    {Names, Processes} = yaltzumin_line:mentions(Letter),
    [{pid, Process, pid_of(Process)} || Process <- Processes] ++ lists:append([known_term(Name) || Name <- Names]).

known_term(Name) ->
    case yaltzumin_text:is_hash(Name) of
        true -> [{term, Name, term_of(Name)}];
        false -> []
    end.

%% @doc The term that a text stands for.
-spec term_of(text()) -> term().
term_of(Text) ->
    case yaltzumin_text:is_hash(Text) of
        true -> ets:lookup_element(?TERMS, Text, 2);
        false -> binary_to_atom(Text)
    end.

%% @doc The process that a text stands for.
-spec pid_of(text()) -> pid().
pid_of(Text) ->
    ets:lookup_element(?PIDS, Text, 2).

%% @doc The process that a text stands for, unless that isn't known any more.
-spec find_pid(text()) -> {ok, pid()} | none.
find_pid(Text) ->
    case ets:lookup(?PIDS, Text) of
        [{_, Pid, _}] -> {ok, Pid};
        [] -> none
    end.

learned(Table, Text, What) ->
    case ets:update_element(Table, Text, [{2, What}, {3, now_s()}]) of
        true ->
            ok;
        false ->
            ets:insert(Table, {Text, What, now_s()}),
            due(Table, Text, now_s() + ?KEPT)
    end.

lost(Table, Text) ->
    ets:update_element(Table, Text, {3, now_s()}).

due(Table, Text, When) ->
    ets:insert(?DUE, {{When, erlang:unique_integer()}, Table, Text}),
    ok.

now_s() ->
    erlang:monotonic_time(second).

%% @doc Forgets what texts stand for that are in no row, of no process that lives here, and were heard of last long ago. Looks at as
%% many as are due, up to so many.
-spec sweep(non_neg_integer()) -> ok.
sweep(0) ->
    ok;
sweep(Count) ->
    case ets:first(?DUE) of
        {When, _} = Key ->
            case When =< now_s() of
                true ->
                    [{_, Table, Text}] = ets:take(?DUE, Key),
                    look_at(Table, Text),
                    sweep(Count - 1);
                false ->
                    ok
            end;
        '$end_of_table' ->
            ok
    end.

look_at(Table, Text) ->
    case ets:lookup(Table, Text) of
        [{_, What, Last}] ->
            case is_wanted(Table, Text, What) orelse Last + ?KEPT > now_s() of
                true -> due(Table, Text, max(Last, now_s()) + ?KEPT);
                false -> ets:delete(Table, Text), ok
            end;
        [] ->
            ok
    end.

is_wanted(?TERMS, Text, _) ->
    ets:member(?ROWS, Text);
is_wanted(?PIDS, Text, Pid) ->
    is_own_and_alive(Pid) orelse ets:select(?OWNED, [{{{yaltzumin_text:node_of_pid(Text), Text, '_'}}, [], [true]}], 1) =/= '$end_of_table'.

is_own_and_alive(Pid) ->
    node(Pid) =:= node() andalso is_process_alive(Pid).
