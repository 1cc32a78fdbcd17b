"""Refused memory where a cluster is served: each console is answered or ended, and then the program ends.

The lines of a talk are said one by one while the allocator refuses a request, or some in a row. Each answer is the one that it is with
ample memory, until a console is told of an error or ended. From then on it may be any that its line may have, or the word of an error.
"""

import re
from dataclasses import dataclass, replace
from functools import partial

from .outcomes import Failure, Test, shown
from .refusing import Library, launch
from .served import PIPES, Console, Served, listen_to

# So many of a talk's requests are refused in turn, and with each so many in a row.
RUNS = 70
IN_A_ROW = (1, 4)
# How many seconds an answer and the end are waited for, and the first answer to a console: there is none where it isn't taken.
MOST_SECONDS = 10
MOST_SECONDS_OF_FIRST = 2

ERROR = rb"error (?:no_such_process|already_exited|not_live|busy|unknown_node|no_such_node|already_joined|node_left|closed|memory)"
PROCESS = rb"[ab]\.[1-9]"
# What the answer to a line may be that begins with this word.
ANSWERS = {
    b"attach": rb"ok",
    b"spawn": PROCESS,
    b"exit": rb"ok",
    b"register": rb"yes|no|unknown_node",
    b"re_register": rb"yes|unknown_node",
    b"unregister": rb"ok",
    b"whereis": PROCESS + rb"|undefined",
    b"names": rb"names(?: x)?(?: y)?",
    b"set_lock": rb"true|false",
    b"del_lock": rb"true",
    b"join": rb"joined|not_member|contact_left",
    b"leave": rb"ok",
    b"quit": rb"ok",
}
# What the program prints last, by its status. No run is torn, and no console a stranger, whatever was refused.
ENDINGS = {0: rb"closed \d+\n", 1: rb"(?:error left_in_hold [a-h]\n|error memory\n)?"}

# The options of `serve`, and the lines with their answers, each behind the number of its console. A look-up finds what its own console was
# told of: where memory is refused, a node shows its table later.
TALKS = {
    "one node": (
        "--nodes a --consoles 1",
        """
        1 attach a: ok
        1 spawn: a.1
        1 register x a.1: yes
        1 whereis x: a.1
        1 set_lock a.1 r p all 0: true
        1 spawn: a.2
        1 set_lock a.2 r q all 1: false
        1 del_lock a.1 r p all: true
        1 register y a.2: yes
        1 names: names x y
        1 unregister x: ok
        1 re_register y a.1: yes
        1 exit a.2: ok
        1 whereis y: a.1
        1 leave: ok
        1 whereis y: error node_left
        1 quit: ok
        """,
    ),
    "two nodes": (
        "--nodes a,b --consoles 2",
        """
        1 attach a: ok
        2 attach b: ok
        1 spawn: a.1
        1 register x a.1: yes
        2 names: names x
        2 whereis x: a.1
        2 spawn: b.1
        2 register y b.1: yes
        1 names: names x y
        2 set_lock b.1 r p all 0: true
        1 set_lock a.1 r q all 1: false
        2 del_lock b.1 r p all: true
        1 set_lock a.1 r q a,b 0: true
        2 unregister y: ok
        1 names: names x
        2 exit b.1: ok
        1 leave: ok
        1 names: error node_left
        1 quit: ok
        2 quit: ok
        """,
    ),
    "a join": (
        "--nodes a --lone b --consoles 2",
        """
        1 attach a: ok
        2 attach b: ok
        1 spawn: a.1
        1 register x a.1: yes
        2 spawn: b.1
        2 register y b.1: yes
        2 join a: joined
        2 names: names x y
        1 names: names x y
        1 whereis y: b.1
        2 set_lock b.1 r p a,b 0: true
        2 del_lock b.1 r p a,b: true
        1 exit a.1: ok
        2 leave: ok
        1 quit: ok
        2 quit: ok
        """,
    ),
}


@dataclass(frozen=True)
class Line:
    console: int
    text: bytes
    answer: bytes


def read_lines(text):
    """Reads the lines of a talk."""
    for line in text.strip().splitlines():
        said, answer = line.strip().split(": ")
        console, text = said.split(" ", 1)
        yield Line(int(console), text.encode(), answer.encode())


class RefusedServed(Served):
    """A cluster that is served over the allocator that refuses so many requests in a row, from this one on."""

    def __init__(self, program, library, options, number, in_a_row):
        self.library = library
        self.settings = {"COUNTED": "listening", "REFUSED": str(number), "TIMES": str(in_a_row)}
        super().__init__(program, options)

    def start(self, words):
        self.process, self.told = launch(self.library, self.settings, words, bufsize=0, **PIPES)

    def __exit__(self, *_):
        super().__exit__()
        self.told.close()

    def count(self):
        """How many requests were counted."""
        found = re.search(rb"counted (\d+)", self.told.read())
        return int(found[1]) if found else 0

    def expect_end(self):
        """Waits for the program's end, and gives its status. Nothing but its last line was printed."""
        output, errors = self.end()
        status = self.process.returncode
        if errors or status not in ENDINGS or not re.fullmatch(ENDINGS[status], output):
            raise Failure(f"the program ended with status {status} and {shown(output + errors)}")
        return status


class Talk:
    """A talk with a served cluster."""

    def __init__(self, served):
        self.served = served
        self.consoles = {}
        # Whether each answer was the one with ample memory.
        self.is_untroubled = True

    def console_of(self, line):
        """The console of a line, if it is still there."""
        if line.console not in self.consoles:
            try:
                self.consoles[line.console] = Console(self.served)
            except OSError:
                self.lose(line.console)
        return self.consoles[line.console]

    def lose(self, number):
        """A console has ended, or wasn't taken."""
        self.consoles[number] = None
        self.is_untroubled = False

    def say(self, line):
        """Says a line, and hears its answer."""
        console = self.console_of(line)
        if not console:
            return
        console.say(line.text + b"\n")
        is_first = line.text.startswith(b"attach")
        listen_to([console], partial(is_answered, console), MOST_SECONDS_OF_FIRST if is_first else self.served.seconds)
        answer = console.next_line()
        if answer is not None:
            console.take_line()
            self.judge(line, answer)
        elif console.has_ended or is_first:
            console.go()
            self.lose(line.console)
        else:
            raise Failure(f"{shown(line.text)} of console {line.console} wasn't answered in time")

    def judge(self, line, answer):
        """Fails where an answer isn't right."""
        if answer == line.answer:
            return
        is_error = re.fullmatch(ERROR, answer)
        if not is_error and (self.is_untroubled or not re.fullmatch(ANSWERS[line.text.split()[0]], answer)):
            raise Failure(f"{shown(line.text)} of console {line.console}: expected {shown(line.answer)}, got {shown(answer)}")
        self.is_untroubled = False

    def hear_ends(self):
        """Each console that is still there hears no more than its end."""
        for number, console in self.consoles.items():
            if not console:
                continue
            listen_to([console], partial(is_answered, console), self.served.seconds)
            if console.heard or not console.has_ended:
                raise Failure(f"console {number} didn't end behind its last line")
            console.go()


def is_answered(console):
    return console.has_ended or console.next_line() is not None


def play(program, library, talk, number, in_a_row):
    """Plays a talk while requests are refused. Gives whether nobody was troubled, and how many requests were counted."""
    options, lines = TALKS[talk]
    with RefusedServed(program, library, options.split(), number, in_a_row) as served:
        talk = Talk(served)
        for line in read_lines(lines):
            talk.say(line)
        talk.hear_ends()
        status = served.expect_end()
        return talk.is_untroubled and status == 0, served.count()


def refuse_some(program, library, talk, in_a_row):
    """Refuses requests that are spread over all of a talk, each with those behind it."""
    program = replace(program, seconds=min(program.seconds, MOST_SECONDS))
    is_untroubled, count = play(program, library, talk, 0, 0)
    if not is_untroubled or not count:
        raise Failure(f"with ample memory it made {count} requests, and its answers or its end weren't right")
    for number in sorted({1 + at * count // RUNS for at in range(RUNS)}):
        try:
            play(program, library, talk, number, in_a_row)
        except Failure as why:
            raise Failure(f"request {number} of some {count}: {why}") from None


def tests(program, root):
    library = Library(root)
    for talk in TALKS:
        for in_a_row in IN_A_ROW:
            name = f"refused memory/{talk} served, {in_a_row} in a row"
            yield Test(name, partial(refuse_some, program, library, talk, in_a_row))
