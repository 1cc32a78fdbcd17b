"""Departures at any moment: a node leaves within a script, and the others finish all the same.

Each worked row below is played up to each of its events, with each `settle` written out as its deliveries; then one of its nodes
leaves. Scripts that are made by chance have departures anywhere, joins, rules and clients' locks. Behind each, letters are delivered and
refused rounds tried again, as often as it may take. Then the joined nodes that are left have the same table, and each other as
members; all their name calls and joins are answered, once each; and none of them holds the global lock, so each may leave.
"""

import random
import re
import subprocess
import threading
from functools import partial

from .outcomes import Failure, Test

ROWS = ("retry_of_two_requesters", "clash_that_the_cluster_wins", "clash_that_nobody_wins", "round_that_a_join_outgrows")
# How often letters are delivered and rounds tried again at the end.
MOST_TRIES = 100
# How many scripts are made by chance for each test of them, unless it is said otherwise.
MADE_AT_ONCE = 25
MADE = 8
# A line that is no command: its refusal parts what lines print from what the next ones do.
MARK = "?"
ANSWER_OF_MARK = "error bad_line"
SHOWS = {"table", "members", "whereis", "names", "notices"}
NAME_CALLS = {"register", "re_register", "unregister", "join"}
LOCK_CALLS = {"set_lock", "del_lock"}


class Talk:
    """A script that is played while it is written."""

    def __init__(self, program, headers):
        self.process = subprocess.Popen([program.path, "script"], stdin=subprocess.PIPE, stdout=subprocess.PIPE, text=True)
        self.seconds = program.seconds
        self.says(*headers)

    def __enter__(self):
        self.timer = threading.Timer(self.seconds, self.process.kill)
        self.timer.start()
        return self

    def __exit__(self, *_):
        self.timer.cancel()
        self.process.kill()
        self.process.communicate()

    def says(self, *lines):
        self.process.stdin.write("".join(f"{it}\n" for it in lines))

    def hears(self, line):
        """What a line prints."""
        self.says(line, MARK)
        self.process.stdin.flush()
        heard = []
        while True:
            answer = self.process.stdout.readline()
            if not answer:
                raise Failure(f"the script ended behind `{line}`")
            if answer == f"{ANSWER_OF_MARK}\n":
                return heard
            heard.append(answer[:-1])


def nodes_of(headers):
    return [node for header in headers for node in header.split()[1:]]


def settled(talk, nodes):
    """Delivers as `settle` does, and gives the deliveries."""
    while True:
        for line in (f"deliver {sender} {receiver}" for sender in sorted(nodes) for receiver in sorted(nodes)):
            if talk.hears(line) not in (["error empty_link"], ["error node_left"]):
                yield line
                break
        else:
            return


def written_out(program, headers, lines):
    """The events of a script's lines, with each `settle` as its deliveries."""
    events = []
    with Talk(program, headers) as talk:
        for line in lines:
            if line == "settle":
                events += settled(talk, nodes_of(headers))
            elif line.split()[0] not in SHOWS:
                talk.hears(line)
                events.append(line)
    return events


def finished(nodes):
    """Lines that deliver all and try all again, as often as it may take, and then show what each node has and let it leave."""
    lines = ["settle", *(f"retry {node}" for node in nodes)] * MOST_TRIES + ["settle"]
    for command in ("table", "members", "leave"):
        lines += [line for node in nodes for line in (MARK, f"{command} {node}")]
    return lines


def answers_in(lines):
    """The replies to numbered calls, by their nodes and numbers."""
    found = {}
    for line in lines:
        answer = re.fullmatch(r"([\w@-]+)#(\d+) (\S+)", line)
        if answer:
            found.setdefault((answer[1], int(answer[2])), []).append(answer[3])
    return found


def numbered_calls(commands):
    """The nodes and numbers of the name calls and joins among these lines, each of which stands with whether it was accepted."""
    last, calls = {}, []
    for line, accepted in commands:
        command, *texts = line.split()
        if accepted and command in NAME_CALLS | LOCK_CALLS:
            node = texts[0].rpartition(".")[0] if command in LOCK_CALLS else texts[0]
            last[node] = last.get(node, 0) + 1
            if command in NAME_CALLS:
                calls.append((node, last[node]))
    return calls


def check(program, headers, lines):
    """Plays lines, some of which are departures, and then checks what is left. Gives what the last of the lines printed."""
    nodes = nodes_of(headers)
    marked = [it for line in lines for it in (line, MARK)]
    script = "".join(f"{it}\n" for it in [*headers, MARK, *marked, *finished(nodes)])
    output = program.run(["script"], input=script.encode()).stdout.decode().split("\n")
    parts = [[]]
    for line in output:
        parts.append([]) if line == ANSWER_OF_MARK else parts[-1].append(line)
    shown = [it[0] if it else "" for it in parts[-3 * len(nodes) :]]
    tables, members, leaves = (shown[at : at + len(nodes)] for at in range(0, len(shown), len(nodes)))
    answers = answers_in(output)
    joined = {*headers[0].split()[1:], *(node for (node, _), replies in answers.items() if "joined" in replies)}
    running = [node for node, table in zip(nodes, tables) if table != "error node_left"]
    left = [node for node in running if node in joined]
    of = lambda rows: {row for node, row in zip(nodes, rows) if node in left}
    if len(of(tables)) > 1:
        raise Failure(f"the tables differ: {sorted(of(tables))}")
    if left and of(members) != {f"members {' '.join(sorted(left))}"}:
        raise Failure(f"of {left} the members are {sorted(of(members))}")
    for node, leave in zip(nodes, leaves):
        if node in running and leave != "ok":
            raise Failure(f"{node} can't leave at the end: {leave}")
    accepted = [not any(it.startswith("error ") for it in part) for part in parts[1:]]
    for node, number in numbered_calls(zip(lines, accepted)):
        replies = answers.get((node, number), [])
        if len(replies) > 1 or node in running and not replies:
            raise Failure(f"call {number} of {node} is answered {len(replies)} times")
    return parts[len(lines)]


def play_row(program, root, name):
    """Plays a row up to each of its events, and lets each of its nodes leave there, which is refused while it holds the lock."""
    with open(f"{root}/tests/scripts/{name}.script", encoding="utf-8") as file:
        lines = file.read().split("\n")
    headers = [it for it in lines[:2] if it.split()[0] in ("cluster", "lone")]
    events = written_out(program, headers, [it for it in lines[len(headers) :] if it])
    refused = 0
    for count in range(len(events) + 1):
        for node in nodes_of(headers):
            try:
                leave = check(program, headers, [*events[:count], f"leave {node}"])
                if leave[0] not in ("ok", "error holds_lock"):
                    raise Failure(f"the leave prints {leave}")
            except Failure as why:
                raise Failure(f"{node} leaves behind {count} events: {why}") from None
            refused += leave[0] != "ok"
    if not 0 < refused < len(events):
        raise Failure(f"{refused} leaves are refused, though each operation holds the lock for a while, and none for long")


def made_script(seed):
    """A script made by chance, of two to eight nodes: its headers and its lines."""
    chance = random.Random(seed)
    nodes = list("abcdefgh")[: chance.randint(2, 8)]
    lone = [node for node in nodes if chance.random() < 0.3][: len(nodes) - 1]
    cluster = [node for node in nodes if node not in lone]
    pid = lambda: f"{chance.choice(nodes)}.{chance.randint(1, 3)}"
    asked = lambda: chance.choice(["all", *(",".join(chance.sample(nodes, chance.randint(1, len(nodes)))) for _ in range(2))])
    rule = lambda: chance.choice(["", " exit", " notify", " notify_all"])
    kinds = {
        "spawn": lambda node: f"spawn {node}",
        "register": lambda node: f"register {node} {chance.choice('xyz')} {pid()}{rule()}",
        "re_register": lambda node: f"re_register {node} {chance.choice('xyz')} {pid()}{rule()}",
        "unregister": lambda node: f"unregister {node} {chance.choice('xyz')}",
        "exit": lambda node: f"exit {pid()}",
        "set_lock": lambda node: f"set_lock {pid()} {chance.choice('rs')} {chance.choice('pq')} {asked()} {chance.choice('0 1 2 infinity'.split())}",
        "del_lock": lambda node: f"del_lock {pid()} {chance.choice('rs')} {chance.choice('pq')} {asked()}",
        "join": lambda node: f"join {node} {chance.choice(cluster)}",
        "retry": lambda node: f"retry {node}",
        "leave": lambda node: f"leave {node}",
        "deliver": lambda node: f"deliver {node} {chance.choice(nodes)}",
        "settle": lambda node: "settle",
    }
    weights = [3, 4, 2, 1, 1, 2, 1, 2, 3, 0.5, 100, 0.5]
    lines = [f"spawn {node}" for node in nodes]
    lines += [kinds[kind](chance.choice(nodes)) for kind in chance.choices([*kinds], weights, k=chance.randint(50, 500))]
    return [f"cluster {' '.join(cluster)}", *([f"lone {' '.join(lone)}"] if lone else [])], lines


def play_made(program, first):
    for seed in range(first, first + MADE_AT_ONCE):
        try:
            check(program, *made_script(seed))
        except Failure as why:
            raise Failure(f"the script of seed {seed}: {why}") from None


def tests(program, root, made=MADE):
    for name in ROWS:
        yield Test(f"departures/{name}", partial(play_row, program, root, name))
    for at in range(made):
        first = at * MADE_AT_ONCE
        yield Test(f"departures/made_{first}_to_{first + MADE_AT_ONCE - 1}", partial(play_made, program, first))
