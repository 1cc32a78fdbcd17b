"""Nodes as programs, without Erlang: each node of a world runs as `cluster_main node`, and the lines that they print for each other are
handed on in an order that is drawn. What happens is played as a script at the same time.

Behind each line the script has to answer what the program answered, in the same order: the answers to calls, and the words of refusals.
Now and then, and in the end, the table that a program showed by its lines has to be the one that its node has in the script, and so do its
members, and what its processes were sent. Some lines of links are spoiled and said before: they are refused, and nothing else is done.

A program tries refused rounds again by itself, and reads its letters to itself at once. How many steps it made is asked behind each line:
so it is known how many of them were trials. Where it isn't known whether a trial came before the letters to itself or behind them the run
ends there.
"""

import collections
import dataclasses
import random
import re
import subprocess
import threading
from functools import partial

from .departures import Talk
from .outcomes import Failure, Test, expect_status

# How many runs there are, how many of them one test makes, and how many lines each has.
RUNS = 100
RUNS_AT_ONCE = 10
MOST_LINES = 400
# How often time goes by before a call at a node that waits, until it tries again.
MOST_TICKS = 70
# A run may take as long as so many answers may.
ANSWERS_OF_A_RUN = 10
# How many of the lines of links are said before so that they spell nothing.
SPOILED = 0.05
# The tag of the question behind each line. Calls have others.
MARK = "0"


class Ended(Exception):
    """A run ends, since it isn't known in which order a program made its steps."""


class Port:
    """The program of one node, and what it showed."""

    def __init__(self, program, node, world):
        self.node = node
        self.process = subprocess.Popen(
            [program.path, "node", node, ",".join(world)], stdin=subprocess.PIPE, stdout=subprocess.PIPE, text=True
        )
        self.timer = threading.Timer(program.seconds, self.process.kill)
        self.timer.start()
        self.steps = 0
        self.table, self.members, self.joined = {}, [node], False
        self.waits = self.is_over = False
        self.killed, self.notices, self.refused = [], collections.defaultdict(list), []

    def end(self):
        self.timer.cancel()
        self.process.kill()
        self.process.communicate()

    def says(self, line):
        """Says a line, and gives what it prints: the lines of letters, and the answers with their tags. A program that has left ends."""
        self.process.stdin.write(f"{line}\n{MARK} steps\n")
        self.process.stdin.flush()
        letters, answers, self.waits = [], [], False
        while True:
            printed = self.process.stdout.readline()
            if not printed:
                self.is_over = True
                return letters, answers
            word, _, text = printed[:-1].partition(" ")
            if word == MARK:
                self.steps = int(text)
                return letters, answers
            if word == "send":
                letters.append(text)
            elif word.isdigit():
                answers.append((word, text))
            else:
                self.shows(word, text, line)

    def shows(self, word, text, line):
        """Takes a line that shows what changed at the node."""
        words = text.split(" ")
        owner = lambda name: self.table[name]
        if word == "put":
            self.table[words[0]] = words[1]
        elif word == "remove":
            self.table.pop(text, None)
        elif word == "strike":
            self.table = {name: owner(name) for name in self.table if owner(name) != text}
        elif word == "drop":
            self.table = {name: owner(name) for name in self.table if owner(name).rpartition(".")[0] != text}
        elif word == "clear":
            self.table = {}
        elif word == "state":
            self.joined, self.members = words[0] == "joined", words[1].split(",")
        elif word == "kill":
            self.killed.append(text)
        elif word == "notice":
            self.notices[words[0]].append("=".join(words[1:]))
        elif word == "wait":
            self.waits = True
        elif word == "error":
            self.refused.append(text)
        else:
            raise Failure(f"{self.node} printed `{word} {text}` for `{line}`")


class Run:
    """Programs, the links between them, and the script of what happens."""

    def __init__(self, program, seed):
        program = dataclasses.replace(program, seconds=ANSWERS_OF_A_RUN * program.seconds)
        self.chance = random.Random(seed)
        count = self.chance.choice([2, 2, 3, 3, 3, 4, 4, 5, 6, 8])
        self.nodes = sorted(self.chance.sample("abcdefgh", count))
        self.founder = self.chance.choice(self.nodes)
        self.links = collections.defaultdict(collections.deque)
        self.serials = dict.fromkeys(self.nodes, 0)
        self.calls = dict.fromkeys(self.nodes, 0)
        self.numbers, self.bare, self.dropped, self.tag = {}, set(), set(), 0
        self.leaving, self.left = set(), set()
        lone = [node for node in self.nodes if node != self.founder]
        self.talk = Talk(program, [f"cluster {self.founder}", f"lone {' '.join(lone)}"])
        self.ports = {node: Port(program, node, self.nodes) for node in self.nodes}
        self.answers = 0

    def __enter__(self):
        self.talk.__enter__()
        self.ports[self.founder].says("founds")
        return self

    def __exit__(self, *why):
        self.talk.__exit__(*why)
        for port in self.ports.values():
            port.end()

    def says(self, node, line):
        """Says a line to a program, and takes what it prints."""
        port = self.ports[node]
        letters, answers = port.says(line)
        for letter in letters:
            receiver, _, text = letter.partition(" ")
            if receiver not in self.left:
                self.links[node, receiver].append(text)
        return port, answers

    def plays(self, line):
        """Plays a line of the script, and gives what it prints, and whether it was accepted."""
        heard = self.talk.hears(line)
        return heard, not any(it.startswith("error ") for it in heard)

    def leaves(self, node, heard):
        """Tries in the script whether a node can leave that is to: whether it has left."""
        if node not in self.leaving:
            return False
        printed, accepted = self.plays(f"leave {node}")
        if accepted:
            heard += printed
        return accepted

    def reads_own(self, node, heard):
        """Delivers in the script what a node sent to itself. Gives how many deliveries there were, and whether the node has left then."""
        count = 0
        while not self.leaves(node, heard):
            printed, accepted = self.plays(f"deliver {node} {node}")
            if not accepted:
                return count, False
            heard += printed
            count += 1
        return count, True

    def follows(self, port, before, event, is_call):
        """Plays in the script what a program did for a line: an event, its letters to itself, and its trials. Gives what that printed."""
        heard, done = [], before
        if event:
            printed, accepted = self.plays(event)
            heard += printed
            done += accepted
            if not accepted and not is_call:
                raise Failure(f"the script refuses `{event}`: {printed}")
        while True:
            count, has_left = self.reads_own(port.node, heard)
            done += count
            if has_left != port.is_over:
                raise Failure(f"{port.node} has left in {'the script' if has_left else 'its program'} alone, behind `{event}`")
            if has_left or done == port.steps:
                return heard
            if done > port.steps:
                raise Failure(f"{port.node} made {port.steps} steps, and the script {done}, behind `{event}`")
            if is_call and event and count:
                raise Ended
            printed, accepted = self.plays(f"retry {port.node}")
            if not accepted:
                raise Failure(f"{port.node} made {port.steps} steps, and the script {done}, behind `{event}`, and can't try again: {printed}")
            heard += printed
            done += 1

    def said(self, node, answers, asked):
        """What a program's answers are in a script. A call has its number from when it is accepted."""
        refused = {tag for tag, text in answers if text.startswith("error ")}
        if asked and asked not in refused and asked not in self.bare:
            self.calls[node] += 1
            self.numbers[asked] = f"{node}#{self.calls[node]} "
        for tag, text in answers:
            if tag in refused and tag != asked:
                # Its process has died, or its node has left: a script has no answer then.
                if text not in ("error not_live", "error node_left"):
                    raise Failure(f"{node} answered `{text}` late")
            else:
                yield self.numbers.get(tag, "") + text

    def does(self, node, line, event, asked=None):
        """Says a line to a program, plays what it did in the script, and compares the answers."""
        before = self.ports[node].steps
        port, answers = self.says(node, line)
        if port.is_over:
            self.left.add(node)
        heard = self.follows(port, before, event, asked is not None)
        said = list(self.said(node, answers, asked))
        if heard != said:
            raise Failure(f"`{line}` at {node}: the script prints {heard}, and the program {said}")
        self.answers += len(said)
        return said

    def ticks(self, node):
        """Lets time go by at a node that waits, until it tries again."""
        for _ in range(MOST_TICKS):
            before = self.ports[node].steps
            if not self.ports[node].waits:
                return
            self.does(node, "tick", None)
            if self.ports[node].steps > before:
                return

    def asks(self, node, line, event, is_bare=False):
        """Asks a node for an event, under the next tag."""
        self.ticks(node)
        self.tag += 1
        tag = str(self.tag)
        if is_bare:
            self.bare.add(tag)
        return self.does(node, f"{tag} {line}", event, tag)

    def delivers(self, sender, receiver):
        """Hands on the next line of a link."""
        text = self.links[sender, receiver].popleft()
        if self.chance.random() < SPOILED:
            self.spoils(sender, receiver, text)
        is_part = text.split(" ")[2].startswith("+")
        self.does(receiver, f"letter {sender} {text}", None if is_part else f"deliver {sender} {receiver}")

    def spoils(self, sender, receiver, text):
        """Says a line of a link so that it spells nothing: it is refused, and nothing else is printed or done."""
        number, stamp, letter = text.split(" ", 2)
        line = self.chance.choice([f"{number} {stamp} x{letter}", f"{text} x", f"{number}x {stamp} {letter}", f"{number} {letter}", f"0{text}"])
        port = self.ports[receiver]
        before, refused = (port.steps, port.table, port.members), len(port.refused)
        printed = port.says(f"letter {sender} {line}")
        if printed != ([], []) or len(port.refused) != refused + 1 or (port.steps, port.table, port.members) != before:
            raise Failure(f"{receiver} took `letter {sender} {line}` for a line, and printed {printed}")

    def leave(self, node):
        self.ticks(node)
        self.tag += 1
        self.bare.add(str(self.tag))
        self.leaving.add(node)
        self.does(node, f"{self.tag} leave", None, str(self.tag))

    def calls_at(self, node):
        """Asks a node for something."""
        chance = self.chance
        own = f"{node}.{chance.randint(1, max(1, self.serials[node]))}"
        other = chance.choice(self.nodes)
        pid = f"{other}.{chance.randint(1, max(1, self.serials[other]))}"
        name, rule = f"n{chance.randint(1, 4)}", chance.choice(["exit", "notify", "notify_all"])
        lock = f"{own} r{chance.randint(1, 2)} q{chance.randint(1, 3)} {chance.choice(['all', 'all', node, ','.join(self.nodes)])}"
        retries = chance.choice(["0", "2", "infinity"])
        kind = chance.random()
        if kind < 0.15:
            said = self.asks(node, "spawn", f"spawn {node}", is_bare=True)
            self.serials[node] = int(said[0].rpartition(".")[2])
        elif kind < 0.35:
            self.asks(node, f"register {name} {pid} {rule}", f"register {node} {name} {pid} {rule}")
        elif kind < 0.42:
            self.asks(node, f"re_register {name} {pid} {rule}", f"re_register {node} {name} {pid} {rule}")
        elif kind < 0.48:
            self.asks(node, f"unregister {name}", f"unregister {node} {name}")
        elif kind < 0.6:
            self.asks(node, f"set_lock {lock} {retries}", f"set_lock {lock} {retries}")
        elif kind < 0.68:
            self.asks(node, f"del_lock {lock}", f"del_lock {lock}")
        elif kind < 0.75:
            self.asks(node, f"exit {own}", f"exit {own}", is_bare=True)
        elif kind < 0.9:
            self.asks(node, f"join {other}", f"join {node} {other}")
        elif kind < 0.97:
            self.does(node, "tick", None)
        elif len(self.nodes) - len(self.left) > 1:
            self.leave(node)

    def goes_on(self):
        """Does one thing by chance."""
        waiting = [link for link, lines in self.links.items() if lines and link[1] not in self.left]
        if waiting and self.chance.random() < 0.75:
            return self.delivers(*self.chance.choice(waiting))
        present = [node for node in self.nodes if node not in self.leaving]
        if present:
            self.calls_at(self.chance.choice(present))

    def shows(self, node):
        """Compares what a program showed with what its node has in the script."""
        port = self.ports[node]
        (table,), (members,) = self.talk.hears(f"table {node}"), self.talk.hears(f"members {node}")
        held = dict(it.split(",")[0].split("=") for it in table.split(" ")[1:])
        if held != port.table:
            raise Failure(f"the table of {node} is {held}, and its program showed {port.table}")
        if members.split(" ")[1:] != port.members:
            raise Failure(f"{members} at {node}, and its program showed {port.members}")

    def shows_processes(self, node):
        """Compares what a program told of its processes with the script."""
        port = self.ports[node]
        for serial in range(1, self.serials[node] + 1):
            pid = f"{node}.{serial}"
            notices = self.talk.hears(f"notices {pid}")
            if notices != [" ".join(["notices", *port.notices[pid]])]:
                raise Failure(f"{pid} has {notices}, and its program told {port.notices[pid]}")
            if pid in port.killed and self.talk.hears(f"exit {pid}") != ["error already_exited"]:
                raise Failure(f"{pid} lives, which its program told to be killed")

    def plays_on(self):
        for count in range(MOST_LINES):
            self.goes_on()
            if count % 40 == 39:
                self.shows_all(self.shows)

    def shows_all(self, show):
        for node in self.nodes:
            if node not in self.left:
                show(node)


def play(program, seed):
    """Plays a run, and gives how many answers were compared."""
    with Run(program, seed) as run:
        try:
            run.plays_on()
            run.shows_all(run.shows)
            run.shows_all(run.shows_processes)
        except Ended:
            pass
        return run.answers


def play_all(program, first):
    for seed in range(first, first + RUNS_AT_ONCE):
        try:
            play(program, seed)
        except Failure as why:
            raise Failure(f"the run of seed {seed}: {why}") from None


# What is said to the node a of a, b and c, and what it prints; it ends with status 1 where a line was out of its place, and else with 0.
TALKS = {
    "refused_lines": (
        [
            "nonsense",
            "7",
            "7 nonsense",
            "7 register x! a.1",
            "7 register x self",
            "7 exit a.1",
            "7 join d",
            "-1 spawn",
            "18446744073709551616 spawn",
            "letter b 1 1",
            "letter b 1 1 nonsense",
            "letter b 1 x applied",
            "letter d 1 1 applied",
            "letter a 1 1 applied",
            "down d",
            "founds",
            "",
            "x" * 1025,
            "18446744073709551615 steps",
        ],
        [
            "error bad_line",
            "error bad_line",
            "7 error bad_line",
            "7 error bad_byte",
            "7 error bad_serial",
            "7 error no_such_process",
            "7 error no_such_node",
            "error bad_line",
            "error bad_line",
            "error bad_line",
            "error bad_line",
            "error bad_line",
            "error no_such_node",
            "error no_such_node",
            "error no_such_node",
            "error bad_line",
            "error bad_line",
            "error line_too_long",
            "18446744073709551615 0",
        ],
        0,
    ),
    "a_line_that_is_lost": (["letter b 1 1 applied", "letter b 3 2 applied", "1 steps"], ["gap b 3"], 1),
    "a_line_that_is_doubled": (["letter b 1 1 applied", "letter b 1 1 applied", "1 steps"], ["gap b 1"], 1),
    "the_first_line_that_is_lost": (["letter c 0 1 applied"], ["gap c 0"], 1),
    "a_line_of_a_node_that_is_gone": (["down b", "letter b 1 1 applied"], ["drop b", "gap b 1"], 1),
    "a_founder_alone": (
        ["founds", "1 spawn", "2 register x self", "3 register x self", "4 leave", "5 spawn"],
        ["state joined a", "1 a.1", "put x a.1", "2 yes", "3 no", "send b 1 N down", "send c 1 N down", "4 ok"],
        0,
    ),
    "a_lone_node": (["1 spawn", "2 steps", "3 join b"], ["1 a.1", "2 1", "send b 1 N join_ask"], 0),
}


def play_talk(program, name):
    lines, expected, status = TALKS[name]
    ran = program.run(["node", "a", "a,b,c"], input="".join(f"{it}\n" for it in lines).encode())
    printed = [re.sub(r"^(send \S+ \d+) \d+ ", r"\1 N ", it) for it in ran.stdout.decode().splitlines()]
    if printed != expected:
        raise Failure(f"it printed {printed}, and not {expected}")
    expect_status(status, ran.returncode)


def tests(program, root, runs=RUNS):
    for name in TALKS:
        yield Test(f"ports/{name}", partial(play_talk, program, name))
    for first in range(0, runs, RUNS_AT_ONCE):
        yield Test(f"ports/runs_{first}_to_{first + RUNS_AT_ONCE - 1}", partial(play_all, program, first), alone=True)
