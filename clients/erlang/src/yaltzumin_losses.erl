%% @doc What a node that died had told of its last write. A write goes to each member on a link of its own, so one that dies in the middle of
%% it may have told some and not others. Each server keeps, for each other node, what came of that node's present write. When the node is
%% gone without a word, those that live tell each other, and each hands on to its program what it hadn't got, before it says that the node
%% is gone. So a write that came to one of them as a whole comes to all.
-module(yaltzumin_losses).
-export([new/0, heard/3, stamp/1, report/2, admits/2]).
-export([begins/3, reported/4, without/2, over/1, dying/1, is_dying/2]).

-export_type([losses/0, report/0]).

-type text() :: yaltzumin_text:text().
-type report() :: none | {Stamp :: non_neg_integer(), Texts :: [binary()]}.
%% A write: the stamp of its step, and its lines, without numbers.

%% What came on the link from a node: the number and the stamp of the last line, and the lines of the present write, the last first.
-record(link, {number = 0 :: non_neg_integer(),
               stamp = 0 :: non_neg_integer(),
               write = none :: none | {Stamp :: non_neg_integer(), [binary()]},
               is_closed = false :: boolean()}).

-record(losses, {links = #{} :: #{text() => #link{}},
                 %% The greatest stamp of all lines that came.
                 stamp = 0 :: non_neg_integer(),
                 %% Of each node that is gone, who is waited for.
                 waits = #{} :: #{text() => [text()]},
                 %% What others told of a node that is gone, or that this one still sees.
                 reports = #{} :: #{text() => #{text() => report()}}}).

-opaque losses() :: #losses{}.

%% @doc Nothing came, and nobody is gone.
-spec new() -> losses().
new() -> #losses{}.

%% @doc A line of a link came: its number, its stamp and its text.
-spec heard(text(), Letter :: binary(), losses()) -> losses().
heard(From, Letter, #losses{links = Links, stamp = Greatest} = Losses) ->
    {Number, Digits, Text} = yaltzumin_line:parts(Letter),
    Stamp = binary_to_integer(Digits),
    Link = maps:get(From, Links, #link{}),
    Next = came(kind(Text), Stamp, Text, Link#link{number = binary_to_integer(Number), stamp = Stamp}),
    Losses#losses{links = Links#{From => Next}, stamp = max(Stamp, Greatest)}.

%% @doc The greatest stamp of all lines that came, from whomever: that of a node's last letter isn't above it.
-spec stamp(losses()) -> non_neg_integer().
stamp(#losses{stamp = Stamp}) -> Stamp.

came(written, Stamp, Text, #link{write = {Stamp, Texts}} = Link) -> Link#link{write = {Stamp, [Text | Texts]}};
came(written, Stamp, Text, Link) -> Link#link{write = {Stamp, [Text]}};
came(over, _, _, Link) -> Link#link{write = none};
came(left, _, _, Link) -> Link#link{write = none, is_closed = true};
came(other, _, _, Link) -> Link.

%% A write is over when its node gives the lock of names back: then each member has it. Of the letters with parts only `admit' goes to all.
kind(<<$+, _/binary>>) -> written;
kind(<<"put ", _/binary>>) -> written;
kind(<<"remove ", _/binary>>) -> written;
kind(<<"strike ", _/binary>>) -> written;
kind(<<"admit ", _/binary>>) -> written;
kind(<<"give global ", _/binary>>) -> over;
kind(<<"welcome">>) -> over;
kind(<<"join_ask">>) -> over;
kind(<<"down">>) -> left;
kind(_) -> other.

%% @doc What came of a node's present write, if that is whole: behind all its parts stands the letter itself.
-spec report(text(), losses()) -> report().
report(Node, #losses{links = Links}) ->
    case Links of
        #{Node := #link{write = {Stamp, [<<C, _/binary>> | _] = Texts}}} when C =/= $+ -> {Stamp, lists:reverse(Texts)};
        _ -> none
    end.

%% @doc Whether a write makes this node a member.
-spec admits(text(), report()) -> boolean().
admits(_, none) -> false;
admits(Node, {_, Texts}) -> lists:last(Texts) =:= <<"admit ", Node/binary>>.

%% @doc A node is gone. What these have of it is waited for, but of those that have told it already.
-spec begins(text(), Others :: [text()], losses()) -> losses().
begins(Node, Others, #losses{waits = Waits, reports = Reports} = Losses) ->
    Told = maps:keys(maps:get(Node, Reports, #{})),
    Losses#losses{waits = Waits#{Node => Others -- Told}}.

%% @doc Another node tells what it has of one that is gone.
-spec reported(text(), From :: text(), report(), losses()) -> losses().
reported(Node, From, Report, #losses{waits = Waits, reports = Reports} = Losses) ->
    Told = maps:get(Node, Reports, #{}),
    Losses#losses{waits = maps:map(fun(It, Others) when It =:= Node -> Others -- [From]; (_, Others) -> Others end, Waits),
                  reports = Reports#{Node => Told#{From => Report}}}.

%% @doc A node tells nothing any more.
-spec without(text(), losses()) -> losses().
without(From, #losses{waits = Waits} = Losses) ->
    Losses#losses{waits = maps:map(fun(_, Others) -> Others -- [From] end, Waits)}.

%% @doc The nodes that are gone of which all have told what they have, each with the letters that haven't come here. They are forgotten.
-spec over(losses()) -> {[{text(), Letters :: [binary()]}], losses()}.
over(#losses{waits = Waits} = Losses) ->
    Nodes = [Node || {Node, []} <- lists:sort(maps:to_list(Waits))],
    {[{Node, missing(Node, Losses)} || Node <- Nodes], lists:foldl(fun forget/2, Losses, Nodes)}.

forget(Node, #losses{links = Links, waits = Waits, reports = Reports} = Losses) ->
    Losses#losses{links = maps:remove(Node, Links), waits = maps:remove(Node, Waits), reports = maps:remove(Node, Reports)}.

missing(Node, #losses{links = Links, reports = Reports}) ->
    Whole = [Report || {_, _} = Report <- maps:values(maps:get(Node, Reports, #{}))],
    case {maps:get(Node, Links, #link{}), lists:sort(Whole)} of
        {#link{is_closed = true}, _} -> [];
        {_, []} -> [];
        {#link{number = Number} = Link, Sorted} ->
            {Stamp, Texts} = lists:last(Sorted),
            Rest = rest(Stamp, Texts, Link),
            Numbers = lists:seq(Number + 1, Number + length(Rest)),
            [<<(integer_to_binary(N))/binary, $\s, (integer_to_binary(Stamp))/binary, $\s, Text/binary>> || {N, Text} <- lists:zip(Numbers, Rest)]
    end.

%% What of a write hasn't come. A line with its stamp, or a later one, stands on the link where it came.
rest(Stamp, Texts, #link{stamp = Last}) when Last < Stamp ->
    Texts;
rest(Stamp, Texts, #link{stamp = Stamp, write = {Stamp, Came}}) ->
    case lists:prefix(lists:reverse(Came), Texts) of
        true -> lists:nthtail(length(Came), Texts);
        false -> []
    end;
rest(_, _, _) ->
    [].

%% @doc The nodes that are gone of which isn't known yet what others have.
-spec dying(losses()) -> [text()].
dying(#losses{waits = Waits}) -> lists:sort(maps:keys(Waits)).

%% @doc Whether a node is one of them.
-spec is_dying(text(), losses()) -> boolean().
is_dying(Node, #losses{waits = Waits}) -> is_map_key(Node, Waits).
