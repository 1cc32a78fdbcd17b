%% @doc Texts of the program's lines: names and other terms, nodes with their creations, processes.
-module(yaltzumin_text).
-export([of_term/1, of_resource/1, is_hash/1]).
-export([is_node/1, of_node/2, node_parts/1, node_of/1, node_of_pid/1, cut/2]).

-export_type([text/0]).

-type text() :: binary().
%% A word of a line: letters, digits, `_', `-', `@', and for nodes and processes `/' and `.'.

%% As many bytes has the text of a term at most, and the hash of one.
-define(MOST_BYTES, 63).
%% And that of a node.
-define(MOST_NODE_BYTES, 64).

%% @doc The text of any term. An atom that can be a text, and doesn't begin with `@', is its own; any other term is `@' and 62
%% digits of its SHA-256. So two terms have two texts, unless their hashes are equal.
-spec of_term(term()) -> text().
of_term(Term) when is_atom(Term) ->
    Text = atom_to_binary(Term),
    case byte_size(Text) =< ?MOST_BYTES andalso is_plain(Text) of
        true -> Text;
        false -> hash(Term)
    end;
of_term(Term) ->
    hash(Term).

%% @doc The text of a term that stands for a resource: `global' is the program's own.
-spec of_resource(term()) -> text().
of_resource(global) -> hash(global);
of_resource(Term) -> of_term(Term).

%% @doc Whether a text is the hash of a term, which can't be told from it.
-spec is_hash(text()) -> boolean().
is_hash(<<$@, _/binary>>) -> true;
is_hash(_) -> false.

hash(Term) ->
    <<Hash:31/binary, _/binary>> = crypto:hash(sha256, term_to_binary(Term, [deterministic, {minor_version, 2}])),
    <<$@, (binary:encode_hex(Hash))/binary>>.

is_plain(<<First, _/binary>> = Text) when First =/= $@ -> is_word(Text);
is_plain(_) -> false.

is_word(<<C, Rest/binary>>) when C >= $a, C =< $z; C >= $A, C =< $Z; C >= $0, C =< $9; C =:= $_; C =:= $-; C =:= $@ ->
    is_word(Rest);
is_word(Rest) ->
    Rest =:= <<>>.

%% @doc Whether the program can have a node of this name.
-spec is_node(term()) -> boolean().
is_node(Node) when is_atom(Node), Node =/= '' ->
    Text = atom_to_binary(Node),
    byte_size(Text) =< ?MOST_NODE_BYTES andalso is_word(Text);
is_node(_) ->
    false.

%% @doc The text of the node of this name and this creation: how often a node of the name has started. The first is the name itself.
-spec of_node(node(), pos_integer()) -> text().
of_node(Node, 1) -> atom_to_binary(Node);
of_node(Node, Creation) -> <<(atom_to_binary(Node))/binary, $/, (integer_to_binary(Creation))/binary>>.

%% @doc The node and the creation that a text of a node tells.
-spec node_parts(text()) -> {node(), pos_integer()}.
node_parts(Text) ->
    case cut($/, Text) of
        {Name, Creation} -> {binary_to_atom(Name), binary_to_integer(Creation)};
        none -> {binary_to_atom(Text), 1}
    end.

%% @doc The node that a text of a node tells.
-spec node_of(text()) -> node().
node_of(Text) ->
    {Node, _Creation} = node_parts(Text),
    Node.

%% @doc The text of the node of the process that has this text.
-spec node_of_pid(text()) -> text().
node_of_pid(Text) ->
    {Node, _Serial} = cut($., Text),
    Node.

%% @doc A text cut at the first byte that is this one: what stands before it, and what stands behind it.
-spec cut(byte(), binary()) -> {binary(), binary()} | none.
cut(Byte, Text) -> cut(Text, Byte, Text, 0).

cut(<<It, Behind/binary>>, Byte, Text, At) when It =:= Byte -> {binary_part(Text, 0, At), Behind};
cut(<<_, Behind/binary>>, Byte, Text, At) -> cut(Behind, Byte, Text, At + 1);
cut(<<>>, _, _, _) -> none.
