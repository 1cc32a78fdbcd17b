%% @doc Lines of the program `cluster_main node': what it is told, and what it prints.
-module(yaltzumin_line).
-export([ask/2, letter/2, down/1, started/1, founds/0, behind/2, tick/0]).
-export([read/1, parts/1, mentions/1, nodes/1, asks_global/1]).

-export_type([tag/0, printed/0]).

-type text() :: yaltzumin_text:text().
-type tag() :: non_neg_integer().
%% What is asked is answered under it.
-type printed() ::
    {tag, tag(), Reply :: binary()} |
    {tag, tag(), {error, Word :: binary()}} |
    {send, To :: text(), Letter :: binary()} |
    {put, Name :: text(), Owner :: text()} |
    {remove, Name :: text()} |
    {strike, Process :: text()} |
    {drop, Node :: text()} |
    clear |
    {state, Joined :: boolean(), Members :: [text()]} |
    {kill, Process :: text()} |
    {notice, Process :: text(), Name :: text(), Other :: text() | none} |
    wait |
    {gap, binary()} |
    {other, binary()}.
%% A line that was printed. A letter is all that stands behind the node that it is for: number, stamp and text.

%% @doc Asks for something, in these words, under a tag.
-spec ask(tag(), [iodata()]) -> iodata().
ask(Tag, Words) -> [lists:join($\s, [integer_to_binary(Tag) | Words]), $\n].

%% @doc Hands on what the program of another node printed for this one.
-spec letter(From :: text(), Letter :: binary()) -> iodata().
letter(From, Letter) -> [<<"letter ">>, From, $\s, Letter, $\n].

%% @doc A node is gone.
-spec down(text()) -> iodata().
down(Node) -> [<<"down ">>, Node, $\n].

%% @doc A node has started whose name had one before.
-spec started(text()) -> iodata().
started(Node) -> [<<"started ">>, Node, $\n].

%% @doc The node founds its cluster.
-spec founds() -> iodata().
founds() -> <<"founds\n">>.

%% @doc These nodes have left, of each name the last, by steps with no greater stamps.
-spec behind(Stamp :: non_neg_integer(), [text(), ...]) -> iodata().
behind(Stamp, Nodes) -> [<<"behind ">>, integer_to_binary(Stamp), $\s, lists:join($,, Nodes), $\n].

%% @doc Time went by.
-spec tick() -> iodata().
tick() -> <<"tick\n">>.

%% @doc What a printed line says, without its end.
-spec read(binary()) -> printed().
read(<<Digit, _/binary>> = Line) when Digit >= $0, Digit =< $9 ->
    {Tag, Reply} = yaltzumin_text:cut($\s, Line),
    {tag, binary_to_integer(Tag), reply(Reply)};
read(<<"send ", Rest/binary>>) ->
    {To, Letter} = yaltzumin_text:cut($\s, Rest),
    {send, To, Letter};
read(Line) ->
    printed(binary:split(Line, <<" ">>, [global]), Line).

reply(<<"error ", Word/binary>>) -> {error, Word};
reply(Reply) -> Reply.

printed([<<"put">>, Name, Owner], _) -> {put, Name, Owner};
printed([<<"remove">>, Name], _) -> {remove, Name};
printed([<<"strike">>, Process], _) -> {strike, Process};
printed([<<"drop">>, Node], _) -> {drop, Node};
printed([<<"clear">>], _) -> clear;
printed([<<"state">>, Word, Members], _) ->
    {state, Word =:= <<"joined">>, binary:split(Members, <<",">>, [global])};
printed([<<"kill">>, Process], _) -> {kill, Process};
printed([<<"notice">>, Process, Name], _) -> {notice, Process, Name, none};
printed([<<"notice">>, Process, Name, Other], _) -> {notice, Process, Name, Other};
printed([<<"wait">>], _) -> wait;
printed([<<"gap">> | _], Line) -> {gap, Line};
printed(_, Line) -> {other, Line}.

%% @doc The digits of the number and of the stamp of a letter, and its text.
-spec parts(Letter :: binary()) -> {Number :: binary(), Stamp :: binary(), Text :: binary()}.
parts(Letter) ->
    {Number, Rest} = yaltzumin_text:cut($\s, Letter),
    {Stamp, Text} = yaltzumin_text:cut($\s, Rest),
    {Number, Stamp, Text}.

text_of(Letter) ->
    {_, _, Text} = parts(Letter),
    Text.

%% @doc The names and the processes that a letter tells of which its reader may not know.
-spec mentions(Letter :: binary()) -> {Names :: [text()], Processes :: [text()]}.
mentions(Letter) ->
    case text_of(Letter) of
        <<"put ", Rest/binary>> -> pair(Rest);
        <<"+put ", Rest/binary>> -> pair(Rest);
        <<"+pair ", Rest/binary>> -> pair(Rest);
        <<"+notice ", Rest/binary>> -> notice(binary:split(Rest, <<" ">>, [global]));
        _ -> {[], []}
    end.

pair(Words) ->
    [Name, Process, _Rule] = binary:split(Words, <<" ">>, [global]),
    {[Name], [Process]}.

notice([_Receiver, Name]) -> {[Name], []};
notice([_Receiver, Name, Other]) -> {[Name], [Other]}.

%% @doc The nodes that a letter tells of, which have started.
-spec nodes(Letter :: binary()) -> [text()].
nodes(Letter) ->
    case text_of(Letter) of
        <<"+member ", Node/binary>> -> [Node];
        <<"+told ", Node/binary>> -> [Node];
        <<"admit ", Node/binary>> -> [Node];
        _ -> []
    end.

%% @doc Whether a letter asks for the lock under which names are changed.
-spec asks_global(Letter :: binary()) -> boolean().
asks_global(Letter) ->
    case text_of(Letter) of
        <<"ask global ", _/binary>> -> true;
        _ -> false
    end.
