%% Texts, lines, tables, processes, letters that were lost, and who is who, without a program.
-module(yaltzumin_tests).
-include_lib("eunit/include/eunit.hrl").

texts_of_terms_test_() ->
    [?_assertEqual(<<"leader">>, yaltzumin_text:of_term(leader)),
     ?_assertEqual(<<"a@b-C_9">>, yaltzumin_text:of_term('a@b-C_9')),
     ?_assertMatch(<<$@, _:62/binary>>, yaltzumin_text:of_term({a, term, "x"})),
     ?_assertMatch(<<$@, _:62/binary>>, yaltzumin_text:of_term('')),
     ?_assertMatch(<<$@, _:62/binary>>, yaltzumin_text:of_term('@x')),
     ?_assertMatch(<<$@, _:62/binary>>, yaltzumin_text:of_term('two words')),
     ?_assertMatch(<<$@, _:62/binary>>, yaltzumin_text:of_term(list_to_atom(lists:duplicate(64, $a)))),
     ?_assertNotEqual(yaltzumin_text:of_term("leader"), yaltzumin_text:of_term(<<"leader">>)),
     ?_assertNotEqual(yaltzumin_text:of_term(1), yaltzumin_text:of_term(1.0)),
     ?_assertMatch(<<$@, _/binary>>, yaltzumin_text:of_resource(global)),
     ?_assertEqual(<<"printer">>, yaltzumin_text:of_resource(printer))].

texts_of_nodes_test_() ->
    [?_assertEqual(<<"a@h">>, yaltzumin_text:of_node('a@h', 1)),
     ?_assertEqual(<<"a@h/3">>, yaltzumin_text:of_node('a@h', 3)),
     ?_assertEqual({'a@h', 1}, yaltzumin_text:node_parts(<<"a@h">>)),
     ?_assertEqual({'a@h', 3}, yaltzumin_text:node_parts(<<"a@h/3">>)),
     ?_assertEqual(<<"a@h/3">>, yaltzumin_text:node_of_pid(<<"a@h/3.17">>)),
     ?_assertEqual([true, false, false, false], [yaltzumin_text:is_node(Node) || Node <- ['a@h', 'a@h.example', '', "a@h"]])].

lines_test_() ->
    [?_assertEqual({tag, 7, <<"a@h.1">>}, yaltzumin_line:read(<<"7 a@h.1">>)),
     ?_assertEqual({tag, 7, {error, <<"not_live">>}}, yaltzumin_line:read(<<"7 error not_live">>)),
     ?_assertEqual({send, <<"b">>, <<"3 9 ask global a a.0">>}, yaltzumin_line:read(<<"send b 3 9 ask global a a.0">>)),
     ?_assertEqual({put, <<"x">>, <<"a.1">>}, yaltzumin_line:read(<<"put x a.1">>)),
     ?_assertEqual({remove, <<"x">>}, yaltzumin_line:read(<<"remove x">>)),
     ?_assertEqual({strike, <<"a.1">>}, yaltzumin_line:read(<<"strike a.1">>)),
     ?_assertEqual({drop, <<"a">>}, yaltzumin_line:read(<<"drop a">>)),
     ?_assertEqual(clear, yaltzumin_line:read(<<"clear">>)),
     ?_assertEqual({state, true, [<<"a">>, <<"b/2">>]}, yaltzumin_line:read(<<"state joined a,b/2">>)),
     ?_assertEqual({state, false, [<<"a">>]}, yaltzumin_line:read(<<"state lone a">>)),
     ?_assertEqual({kill, <<"a.1">>}, yaltzumin_line:read(<<"kill a.1">>)),
     ?_assertEqual({notice, <<"a.1">>, <<"x">>, none}, yaltzumin_line:read(<<"notice a.1 x">>)),
     ?_assertEqual({notice, <<"a.1">>, <<"x">>, <<"b.1">>}, yaltzumin_line:read(<<"notice a.1 x b.1">>)),
     ?_assertEqual(wait, yaltzumin_line:read(<<"wait">>)),
     ?_assertEqual({gap, <<"gap b 3">>}, yaltzumin_line:read(<<"gap b 3">>)),
     ?_assertEqual({other, <<"error memory">>}, yaltzumin_line:read(<<"error memory">>)),
     ?_assertEqual(<<"7 register x self exit\n">>,
                   iolist_to_binary(yaltzumin_line:ask(7, [<<"register">>, <<"x">>, <<"self">>, <<"exit">>]))),
     ?_assertEqual(<<"letter b 1 1 join_ask\n">>, iolist_to_binary(yaltzumin_line:letter(<<"b">>, <<"1 1 join_ask">>))),
     ?_assert(yaltzumin_line:asks_global(<<"3 9 ask global a a.0">>)),
     ?_assertNot(yaltzumin_line:asks_global(<<"3 9 ask printer a a.1">>)),
     ?_assertEqual({[<<"x">>], [<<"a.1">>]}, yaltzumin_line:mentions(<<"3 9 +pair x a.1 exit">>)),
     ?_assertEqual({[<<"x">>], []}, yaltzumin_line:mentions(<<"3 9 +notice a.1 x">>)),
     ?_assertEqual({[<<"x">>], [<<"b.1">>]}, yaltzumin_line:mentions(<<"3 9 +notice a.1 x b.1">>)),
     ?_assertEqual({[], []}, yaltzumin_line:mentions(<<"3 9 remove x">>)),
     ?_assertEqual([<<"b/2">>], lists:append([yaltzumin_line:nodes(Letter) || Letter <- [<<"3 9 admit b/2">>, <<"3 9 put x b/3.1 exit">>, <<"4 9 down">>]])),
     ?_assertEqual([<<"b/2">>, <<"c">>], yaltzumin_line:nodes(<<"3 9 +member b/2">>) ++ yaltzumin_line:nodes(<<"4 9 +told c">>)),
     ?_assertEqual(<<"behind 17 a/2,b\n">>, iolist_to_binary(yaltzumin_line:behind(17, [<<"a/2">>, <<"b">>])))].

tables_test_() ->
    {setup, fun yaltzumin_table:new/0, fun(_) -> lists:foreach(fun drop_table/1, ets:all()) end, [fun names_of_owners/0]}.

drop_table(Table) ->
    case is_atom(Table) andalso lists:prefix("yaltzumin_", atom_to_list(Table)) of
        true -> ets:delete(Table);
        false -> ok
    end.

names_of_owners() ->
    [P, Q] = [spawn(fun() -> receive stop -> ok end end) || _ <- [1, 2]],
    Tuple = {a, term},
    Hash = yaltzumin_text:of_term(Tuple),
    yaltzumin_table:learn([{pid, <<"a.1">>, P}, {pid, <<"b.1">>, Q}, {term, Hash, Tuple}]),
    yaltzumin_table:put(<<"x">>, <<"a.1">>),
    yaltzumin_table:put(Hash, <<"a.1">>),
    yaltzumin_table:put(<<"y">>, <<"b.1">>),
    ?assertEqual([P, P, Q, undefined], [yaltzumin_table:owner(Name) || Name <- [x, Tuple, y, z]]),
    ?assertEqual([{pid, <<"a.1">>, P}, {term, Hash, Tuple}], yaltzumin_table:known(<<"1 1 put ", Hash/binary, " a.1 exit">>)),
    %% A name that has another owner now doesn't go with the one before.
    yaltzumin_table:put(<<"x">>, <<"b.1">>),
    yaltzumin_table:strike(<<"a.1">>),
    ?assertEqual([Q, undefined, Q], [yaltzumin_table:owner(Name) || Name <- [x, Tuple, y]]),
    yaltzumin_table:remove(<<"y">>),
    yaltzumin_table:remove(yaltzumin_text:of_term({never, heard, 'of'})),
    ?assertEqual([x], yaltzumin_table:names()),
    yaltzumin_table:drop(<<"b">>),
    ?assertEqual([], yaltzumin_table:names()),
    %% A whole table takes the place of another.
    yaltzumin_table:put(<<"x">>, <<"a.1">>),
    yaltzumin_table:put(<<"y">>, <<"a.1">>),
    yaltzumin_table:replace([{<<"z">>, <<"b.1">>}, {<<"y">>, <<"b.1">>}]),
    ?assertEqual([undefined, Q, Q], [yaltzumin_table:owner(Name) || Name <- [x, y, z]]),
    yaltzumin_table:strike(<<"a.1">>),
    ?assertEqual([y, z], lists:sort(yaltzumin_table:names())),
    yaltzumin_table:clear(),
    ?assertEqual([], yaltzumin_table:names()),
    yaltzumin_table:sweep(100),
    ?assertEqual(Tuple, yaltzumin_table:term_of(Hash)).

owners_test() ->
    P = spawn(fun() -> receive stop -> ok end end),
    Spawning = yaltzumin_owners:watch(P, yaltzumin_owners:add(P, yaltzumin_owners:new())),
    ?assertEqual(spawning, yaltzumin_owners:find(P, Spawning)),
    {[one, two], runs, Known} = yaltzumin_owners:spawned(P, <<"a.1">>, yaltzumin_owners:wait(P, two, yaltzumin_owners:wait(P, one, Spawning))),
    ?assertEqual({ok, <<"a.1">>}, yaltzumin_owners:find(P, Known)),
    {<<"a.1">>, None} = yaltzumin_owners:ended(P, Known),
    ?assertEqual(none, yaltzumin_owners:find(P, None)),
    {none, Ended} = yaltzumin_owners:ended(P, Spawning),
    ?assertMatch({[], ended, _}, yaltzumin_owners:spawned(P, <<"a.1">>, Ended)).

%% What comes of a write, and what others have of it.
heard(From, Letters, Losses) ->
    lists:foldl(fun(Letter, It) -> yaltzumin_losses:heard(From, Letter, It) end, Losses, Letters).

reports_test_() ->
    Reported = fun(Letters) -> yaltzumin_losses:report(<<"d">>, heard(<<"d">>, Letters, yaltzumin_losses:new())) end,
    Admission = [<<"2 9 +put x e.1 exit">>, <<"3 9 +kill a.1">>, <<"4 9 admit e">>],
    [?_assertEqual(none, Reported([])),
     ?_assertEqual(none, Reported([<<"1 7 ask global d d.0">>])),
     ?_assertEqual({9, [<<"put x a.1 exit">>]}, Reported([<<"1 7 ask global d d.0">>, <<"2 9 put x a.1 exit">>, <<"3 11 ask r q d.1">>])),
     ?_assertEqual({9, [<<"remove x">>]}, Reported([<<"2 9 remove x">>])),
     ?_assertEqual({9, [<<"strike a.1">>]}, Reported([<<"2 9 strike a.1">>])),
     ?_assertEqual({12, [<<"remove y">>]}, Reported([<<"2 9 remove x">>, <<"3 12 remove y">>])),
     %% Not before the letter behind its parts, and not when each member has it.
     ?_assertEqual(none, Reported(lists:droplast(Admission))),
     ?_assertEqual({9, [<<"+put x e.1 exit">>, <<"+kill a.1">>, <<"admit e">>]}, Reported(Admission)),
     ?_assertEqual(none, Reported(Admission ++ [<<"5 12 give global d d.0 quiet">>])),
     ?_assertMatch({9, _}, Reported(Admission ++ [<<"5 12 give r q d.1 quiet">>])),
     %% What is for one node alone isn't handed on.
     ?_assertEqual(none, Reported([<<"1 9 +member a">>, <<"2 9 +pair x a.1 exit">>, <<"3 9 welcome">>])),
     ?_assertEqual(none, Reported([<<"1 9 +pair x d.1 exit">>, <<"2 9 join_ask">>])),
     ?_assertEqual(none, Reported([<<"1 9 put x a.1 exit">>, <<"2 12 down">>])),
     ?_assertEqual([true, false, false], [yaltzumin_losses:admits(Node, Report)
                                          || {Node, Report} <- [{<<"e">>, Reported(Admission)}, {<<"a">>, Reported(Admission)}, {<<"e">>, none}]])].

%% What is handed on of a write, by what has come of it.
missing_test_() ->
    Write = {9, [<<"+put x e.1 exit">>, <<"+kill a.1">>, <<"admit e">>]},
    Missing = fun(Letters, Reports) ->
        Told = lists:foldl(fun({From, Report}, It) -> yaltzumin_losses:reported(<<"d">>, From, Report, It) end,
                           heard(<<"d">>, Letters, yaltzumin_losses:new()), Reports),
        {[{<<"d">>, Rest}], After} = yaltzumin_losses:over(yaltzumin_losses:begins(<<"d">>, [<<"b">>, <<"c">>], Told)),
        ?assertEqual({[], After}, yaltzumin_losses:over(After)),
        Rest
    end,
    Told = [{<<"b">>, none}, {<<"c">>, Write}],
    Whole = [<<"2 9 +put x e.1 exit">>, <<"3 9 +kill a.1">>, <<"4 9 admit e">>],
    Asked = <<"1 7 ask global d d.0">>,
    [?_assertEqual(Whole, Missing([Asked], Told)),
     ?_assertEqual(tl(Whole), Missing([Asked, hd(Whole)], Told)),
     ?_assertEqual([], Missing([Asked | Whole], Told)),
     ?_assertEqual([], Missing([Asked, <<"2 12 ask r q d.1">>], Told)),
     ?_assertEqual([], Missing([Asked], [{<<"b">>, none}, {<<"c">>, none}])),
     %% Of two writes the one before has come everywhere.
     ?_assertEqual([<<"2 20 remove y">>], Missing([Asked], [{<<"b">>, {20, [<<"remove y">>]}}, {<<"c">>, Write}])),
     %% A welcome of the same step stands in the place of the admission; and a node that has left says nothing more.
     ?_assertEqual([], Missing([<<"1 9 +member d">>], Told)),
     ?_assertEqual([], Missing([<<"1 9 welcome">>], Told)),
     ?_assertEqual([], Missing([<<"1 7 down">>], Told))].

waits_test() ->
    Began = yaltzumin_losses:begins(<<"d">>, [<<"b">>, <<"c">>], yaltzumin_losses:new()),
    ?assert(yaltzumin_losses:is_dying(<<"d">>, Began)),
    ?assertEqual([<<"d">>], yaltzumin_losses:dying(Began)),
    ?assertMatch({[], _}, yaltzumin_losses:over(Began)),
    One = yaltzumin_losses:reported(<<"d">>, <<"b">>, none, Began),
    ?assertMatch({[], _}, yaltzumin_losses:over(One)),
    %% Who is gone, too, is waited for no more.
    {[{<<"d">>, []}], After} = yaltzumin_losses:over(yaltzumin_losses:without(<<"c">>, One)),
    ?assertEqual([], yaltzumin_losses:dying(After)).

%% Who is who, as the node `nonode@nohost' sees it.
-define(ME, <<"nonode@nohost">>).

peers(Founds, Told) ->
    {Lines, Peers} = yaltzumin_peers:new([node(), 'b@h', 'c@h'], ?ME, Founds, Told, 17),
    {iolist_to_binary(Lines), Peers}.

hello(Text, Members, Told) ->
    #{node => yaltzumin_text:node_of(Text), pid => spawn(fun() -> ok end), text => Text, joined => Members =/= lone,
      members => case Members of lone -> [Text]; _ -> Members end, told => Told, stamp => 0, knows => ?ME, answer => false}.

greeted(Hello, Peers) ->
    {Lines, Next} = yaltzumin_peers:greeted(Hello, Peers),
    {iolist_to_binary(Lines), Next}.

departures_test() ->
    {<<>>, Founder} = peers(true, []),
    ?assert(yaltzumin_peers:is_joined(Founder)),
    %% A node that is lone is told by its first line who has left; one that founds its cluster is told of one after another, each older one of a
    %% name before.
    {<<"down b@h\nstarted b@h/2\ndown b@h/2\n">>, _} = peers(true, [<<"b@h/2">>]),
    {<<"behind 17 b@h/2\n">>, Told} = peers(false, [<<"b@h/2">>]),
    ?assertEqual([<<"b@h/2">>], yaltzumin_peers:told(Told)),
    {<<"started b@h/3\n">>, Third} = greeted(Hello = hello(<<"b@h/3">>, lone, []), Told),
    {<<>>, Third} = greeted(hello(<<"b@h/2">>, lone, []), Third),
    ?assertEqual([true, false, false], [yaltzumin_peers:is_linked_from(Text, Third) || Text <- [<<"b@h/3">>, <<"b@h/2">>, <<"c@h">>]]),
    {Gone, After} = yaltzumin_peers:left(maps:get(pid, Hello), Third),
    ?assertEqual(<<"down b@h/3\n">>, iolist_to_binary(Gone)),
    ?assert(yaltzumin_peers:has_left(<<"b@h/3">>, After)),
    ?assertNot(yaltzumin_peers:is_linked_from(<<"b@h/3">>, After)),
    ?assertMatch({[], _}, yaltzumin_peers:left(maps:get(pid, Hello), After)).

%% A member is gone: what it wrote last is told to the others, and asked of them, before the program is told.
-define(LOSS(Gone, From, Report), #{gone => Gone, from => From, pid => self(), joined => true, members => [?ME, <<"b@h">>, <<"c@h">>],
                                    report => Report, known => [], answer => false}).
members() ->
    {<<>>, Peers} = peers(true, []),
    {<<>>, Both} = greeted((hello(<<"c@h">>, lone, []))#{pid => self()}, element(2, greeted(Hello = hello(<<"b@h">>, lone, []), Peers))),
    {maps:get(pid, Hello), yaltzumin_peers:set_state(true, [?ME, <<"b@h">>, <<"c@h">>], Both)}.

losses_test() ->
    {Pid, Members} = members(),
    Heard = yaltzumin_peers:heard(<<"b@h">>, <<"1 7 remove x">>, Members),
    {[], Dying} = yaltzumin_peers:left(Pid, Heard),
    ?assert(yaltzumin_peers:has_left(<<"b@h">>, Dying)),
    ?assertEqual([<<"b@h">>], yaltzumin_peers:told(Dying)),
    receive {lost, Loss} -> ?assertMatch(#{gone := <<"b@h">>, from := ?ME, report := {7, [<<"remove x">>]}, answer := true}, Loss) end,
    %% That another says so, too, isn't believed meanwhile, and its next one waits.
    ?assertMatch({<<>>, _}, greeted((hello(<<"c@h">>, [<<"c@h">>, ?ME], [<<"b@h">>]))#{pid => self()}, Dying)),
    {<<>>, Still} = greeted(hello(<<"b@h/2">>, lone, []), Dying),
    ?assertNot(yaltzumin_peers:is_linked_from(<<"b@h/2">>, Still)),
    {Lines, Gone} = yaltzumin_peers:lost(?LOSS(<<"b@h">>, <<"c@h">>, {9, [<<"remove y">>]}), Dying),
    ?assertEqual(<<"letter b@h 2 9 remove y\ndown b@h\n">>, iolist_to_binary(Lines)),
    ?assertEqual([<<"b@h">>], yaltzumin_peers:told(Gone)),
    %% Who is gone, too, isn't waited for.
    {[], Waits} = yaltzumin_peers:left(Pid, Members),
    {Both, _} = yaltzumin_peers:left(self(), Waits),
    ?assertEqual(<<"down b@h\ndown c@h\n">>, iolist_to_binary(Both)),
    ?assertEqual(0, length([It || {starts_anew, _} = It <- mailbox()])).

%% Another lost a node that this one sees: that one is asked, and the other answered when it is gone.
early_test() ->
    {Pid, Members} = members(),
    {[], Told} = yaltzumin_peers:lost((?LOSS(<<"b@h">>, <<"c@h">>, none))#{answer := true}, Members),
    ?assertEqual([], mailbox()),
    {Lines, _} = yaltzumin_peers:left(Pid, Told),
    ?assertEqual(<<"down b@h\n">>, iolist_to_binary(Lines)),
    ?assertMatch([{lost, #{answer := true}}, {lost, #{answer := false}}], mailbox()),
    %% And at once where it is gone for long, or was never there.
    {[], _} = yaltzumin_peers:lost((?LOSS(<<"d@h">>, <<"c@h">>, none))#{answer := true}, Members),
    ?assertMatch([{lost, #{gone := <<"d@h">>, report := none, answer := false}}], mailbox()).

%% Nobody was told that this node is a member, but it.
admission_lost_test() ->
    {Pid, Members} = members(),
    {[], Dying} = yaltzumin_peers:left(Pid, Members),
    _ = mailbox(),
    Loss = (?LOSS(<<"b@h">>, <<"c@h">>, none))#{members := [<<"b@h">>, <<"c@h">>]},
    Outcome = fun(It) -> _ = yaltzumin_peers:lost(It, Dying), mailbox() end,
    ?assertMatch([{starts_anew, {admission_lost, <<"b@h">>}}], Outcome(Loss)),
    ?assertEqual([], Outcome(Loss#{report := {9, [<<"admit ", ?ME/binary>>]}})),
    ?assertEqual([], Outcome(Loss#{members := [?ME, <<"c@h">>]})),
    ?assertEqual([], Outcome(Loss#{joined := false})).

%% Of two that lost each other, while a third sees both, the one that isn't joined starts anew, or the greater.
torn_test() ->
    {<<>>, Peers} = peers(true, []),
    Tear = #{by => <<"b@h">>, joined => true, pid => self(), via => self()},
    ?assertEqual(starts_anew, yaltzumin_peers:torn(Tear, Peers)),
    ?assertEqual(starts_anew, yaltzumin_peers:torn(Tear#{by => <<"z@h">>}, element(2, peers(false, [])))),
    ?assertEqual(stays, yaltzumin_peers:torn(Tear#{joined => false}, Peers)),
    ?assertMatch([{outlives, #{by := ?ME, joined := true}}], mailbox()),
    ?assertEqual(stays, yaltzumin_peers:torn(Tear#{by => <<"z@h">>}, Peers)),
    ?assertMatch([{outlives, #{by := ?ME}}], mailbox()),
    ok = yaltzumin_peers:outlives(Tear),
    ?assertMatch([{torn, #{by := <<"b@h">>}}], mailbox()).

%% What was sent; the ends of processes that said hello are no part of it.
mailbox() ->
    receive
        {'DOWN', _, _, _, _} -> mailbox();
        It -> [It | mailbox()]
    after 0 ->
        []
    end.

%% A server that starts again: whoever had its node has left, and a new one under the same text isn't taken for it.
restarts_test() ->
    {<<>>, Peers} = peers(true, []),
    {<<>>, First} = greeted(hello(<<"b@h">>, lone, []), Peers),
    {<<"down b@h\nstarted b@h/2\n">>, _} = greeted(hello(<<"b@h/2">>, lone, []), First),
    {<<"down b@h\n">>, Same} = greeted(hello(<<"b@h">>, lone, []), First),
    ?assertNot(yaltzumin_peers:is_linked_from(<<"b@h">>, Same)),
    {#{told := [<<"b@h">>]}, Lines, _} = yaltzumin_peers:asked('b@h', First),
    ?assertEqual(<<"down b@h\n">>, iolist_to_binary(Lines)).

%% That a node has left is believed of those that this one doesn't see.
told_test() ->
    {<<>>, Peers} = peers(true, []),
    {<<>>, Seen} = greeted(hello(<<"b@h">>, lone, []), Peers),
    {<<"started c@h/2\n">>, _} = greeted(hello(<<"c@h/2">>, lone, [<<"b@h">>]), element(2, greeted(hello(<<"b@h">>, lone, [<<"c@h">>]), Peers))),
    {<<>>, _} = greeted(hello(<<"c@h">>, lone, [<<"b@h">>]), Seen),
    {<<"down b@h\n">>, _} = greeted(hello(<<"c@h">>, lone, [<<"b@h">>]), Peers).

%% Nodes that a letter names have started: the program is told so before, unless this node sees the one before it still.
named_test() ->
    {<<>>, Peers} = peers(true, []),
    Named = fun(Texts, P) -> {Lines, _} = yaltzumin_peers:named(Texts, P), iolist_to_binary(Lines) end,
    ?assertEqual(<<"down b@h\nstarted b@h/2\n">>, Named([<<"b@h/2">>, <<"c@h">>, ?ME], Peers)),
    {<<>>, Seen} = greeted(hello(<<"b@h">>, lone, []), Peers),
    ?assertEqual(<<>>, Named([<<"b@h/2">>], Seen)),
    {_, Later} = yaltzumin_peers:named([<<"b@h/2">>], Peers),
    ?assertEqual(<<>>, Named([<<"b@h/2">>], Later)),
    ?assertEqual([<<"b@h">>], yaltzumin_peers:told(Later)).

%% A node that starts asks those that are there: which one it is of its name, who has left, and behind which stamp.
beginning_test_() ->
    Stands = fun(Text, Joined, Members, Told, Stamp) ->
        #{text => Text, joined => Joined, members => Members, told => Told, stamp => Stamp}
    end,
    Begins = fun(Standings) -> yaltzumin_peers:beginning(['b@h', 'c@h', 'd@h'], Standings) end,
    Starting = Stands(none, false, [], [], 0),
    Lone = Stands(<<"b@h/2">>, false, [<<"b@h/2">>], [<<"b@h">>, <<"d@h/3">>], 30),
    Joined = Stands(<<"c@h">>, true, [<<"c@h">>], [<<"b@h">>, ?ME], 20),
    [?_assertEqual({1, false, [], 0}, Begins([])),
     ?_assertEqual({1, false, [], 0}, Begins([Starting])),
     ?_assertEqual({1, false, [<<"b@h">>, <<"d@h/3">>], 30}, Begins([Starting, Lone])),
     %% Of its own name it is the next one, whoever knows of that, and what others say has left is that of one side.
     ?_assertEqual({2, true, [?ME, <<"b@h">>], 30}, Begins([Lone, Joined])),
     ?_assertEqual({2, true, [?ME, <<"b@h/4">>], 20}, Begins([Joined#{told := [<<"b@h/4">>, ?ME]}])),
     %% That one has left which answers isn't believed, but those before it have.
     ?_assertEqual({1, true, [<<"b@h">>], 30}, Begins([Lone, Joined#{told := [<<"b@h/2">>]}])),
     ?_assertEqual({5, true, [<<"nonode@nohost/4">>, <<"b@h">>], 30}, Begins([Lone#{told := [<<"nonode@nohost/4">>]}, Joined]))].

%% Who starts later is told the greatest stamp that this node knows of: of letters, of hellos, or of its own start.
stamps_test() ->
    Stamp = fun(P) -> {#{stamp := It}, _, _} = yaltzumin_peers:asked('c@h', P), It end,
    {_, Started} = peers(false, [<<"b@h">>]),
    ?assertEqual(17, Stamp(Started)),
    {_, Greeted} = greeted((hello(<<"b@h/2">>, lone, []))#{stamp := 21}, Started),
    ?assertEqual(21, Stamp(Greeted)),
    Heard = yaltzumin_peers:heard(<<"b@h/2">>, <<"2 35 down">>, yaltzumin_peers:heard(<<"b@h/2">>, <<"1 30 join_ask">>, Greeted)),
    ?assertEqual(35, Stamp(Heard)),
    %% Also when what came of that node is forgotten.
    {_, Lines, Gone} = yaltzumin_peers:asked('b@h', Heard),
    ?assertEqual(<<"down b@h/2\n">>, iolist_to_binary(Lines)),
    ?assertEqual(35, Stamp(Gone)).

survey_test() ->
    ?assertEqual({1, false, [], 0}, yaltzumin_peers:survey([node(), 'b@h', 'c@h'], false)).

joins_test() ->
    {<<>>, Lone} = peers(false, []),
    ?assertEqual(none, yaltzumin_peers:contact(Lone)),
    Members = [<<"b@h">>, <<"c@h/2">>],
    {<<>>, Met} = greeted(Hello = hello(<<"b@h">>, Members, []), Lone),
    %% Not before it is linked with each member.
    ?assertEqual(missing, yaltzumin_peers:contact(Met)),
    {_, Linked} = greeted(hello(<<"c@h/2">>, Members, []), Met),
    ?assertMatch({join, <<"b@h">>}, yaltzumin_peers:contact(Linked)),
    Joined = yaltzumin_peers:set_state(true, Members ++ [?ME], Linked),
    ?assertEqual(none, yaltzumin_peers:contact(Joined)),
    ?assert(yaltzumin_peers:is_synchronous(['b@h', 'c@h'], Joined)),
    ?assertNot(yaltzumin_peers:is_synchronous(['d@h'], Joined)),
    %% It was admitted by one that is gone, and its welcome was lost.
    {_, Admitted} = greeted(Hello#{members := [?ME | Members]}, Linked),
    ?assertEqual(starts_anew, yaltzumin_peers:contact(Admitted)),
    ?assertEqual(none, yaltzumin_peers:contact(yaltzumin_peers:set_state(true, Members ++ [?ME], Admitted))).

%% Of two sides that parted the one that isn't joined starts anew, or that with fewer members, or that without the least node, or else
%% the greater node.
sides_test() ->
    {<<>>, Lone} = peers(false, []),
    Joined = yaltzumin_peers:set_state(true, [<<"c@h">>, ?ME], Lone),
    Parted = fun(Members, Left) -> #{text => <<"b@h">>, joined => true, members => Members, left => Left, answer => false} end,
    ?assertEqual(starts_anew, yaltzumin_peers:parted(Parted([<<"b@h">>], ?ME), Lone)),
    ?assertEqual(stays, yaltzumin_peers:parted(Parted([<<"b@h">>], ?ME), Joined)),
    ?assertEqual(starts_anew, yaltzumin_peers:parted(Parted([<<"b@h">>, <<"d@h">>], ?ME), Joined)),
    ?assertEqual(starts_anew, yaltzumin_peers:parted(Parted([<<"b@h">>, <<"d@h">>, <<"e@h">>], ?ME), Joined)),
    ?assertEqual(stays, yaltzumin_peers:parted(Parted([<<"b@h">>, <<"d@h">>, <<"e@h">>], <<"nonode@nohost/2">>), Joined)),
    %% Both are members of one that sees both.
    Between = yaltzumin_peers:set_state(true, [<<"a@h">>, ?ME], Lone),
    ?assertEqual(starts_anew, yaltzumin_peers:parted(Parted([<<"a@h">>, <<"b@h">>], ?ME), Between)).

%% A founder that meets another cluster refuses it.
strangers_test() ->
    {<<>>, Founder} = peers(true, []),
    {<<>>, Same} = greeted(hello(<<"b@h">>, [<<"b@h">>], []), Founder),
    ?assertNot(yaltzumin_peers:is_linked_from(<<"b@h">>, Same)).
