"""Tests of descriptions and of waits for a name, at a server that stays: what is told of processes, for how long, and when waits end."""

import time
from functools import partial

from .outcomes import Failure, Test, expect_same
from .served import Console, Served, listen_to
from .talks import hears
from .waits import attach, shut_down, until_there_is_a_place

COOKIE = "0123456789abcdef"
# How long a wait takes at most to begin, where nothing is answered by which that could be seen.
ON_THE_WAY = 0.2
# How long after a name came or went who waits for that is told at most: looks are 20 ms apart, and the machine may be busy.
SOON = 2
# How many processes may be described.
MOST = 65_536


class Client:
    """A console at a node."""

    def __init__(self, served, node="a", options=()):
        self.seconds = served.seconds
        self.console = Console(served)
        self.is_told_to(attach(options, node), b"ok")

    def is_told_to(self, line, answer):
        """Hears this answer to a line."""
        expect_same(f"the answer to {line.decode()}", answer, hears(self.console, line, self.seconds))

    def is_told_all(self, lines, answers):
        """Hears these answers to lines that come in one piece."""
        self.console.say(lines)
        listen_to([self.console], lambda: len(self.console.heard) >= len(answers), self.seconds)
        if self.console.heard != answers:
            raise Failure(f"many lines were answered otherwise than {answers[:80].decode()} ..")
        self.console.heard = b""

    def begins(self, line):
        """Says a line that is to wait, and hears nothing for a while."""
        self.console.say(line + b"\n")
        if listen_to([self.console], lambda: self.console.next_line() is not None, ON_THE_WAY):
            raise Failure(f"{line.decode()} was answered {self.console.heard.decode()}")

    def is_told(self, answer, seconds=None):
        """Hears this, and soon."""
        listen_to([self.console], lambda: self.console.next_line() is not None, seconds or self.seconds)
        expect_same("what was waited for", answer, self.console.next_line() or b"nothing in time")
        self.console.take_line()


def served_to(program, nodes="a,b", consoles=4, options=()):
    return Served(program, ["--stay", "--nodes", nodes, "--consoles", str(consoles), *options])


def description_goes_with_its_process(program):
    """It goes by an exit, by the end of the console that the process is linked to, whichever way, and with the node; others stay."""
    with served_to(program) as served:
        one, two, other = Client(served), Client(served), Client(served, "b")
        for client, process, text in [(one, b"a.1", b"one"), (two, b"a.2", b"two"), (other, b"b.1", b"b")]:
            client.is_told_to(b"spawn_link", process)
            client.is_told_to(b"describe self " + text, b"ok")
        one.is_told_to(b"spawn", b"a.3")
        one.is_told_to(b"describe a.3 stays  here ", b"ok")
        one.is_told_to(b"exit a.1", b"ok")
        one.is_told_to(b"describe a.1", b"undefined")
        two.console.go()
        until = time.monotonic() + program.seconds
        while hears(one.console, b"describe a.2", program.seconds) != b"undefined":
            if time.monotonic() > until:
                raise Failure("the description outlives its process")
        one.is_told_to(b"describe b.1", b"description b")
        other.is_told_to(b"leave", b"ok")
        one.is_told_to(b"describe b.1", b"undefined")
        other.is_told_to(b"describe b.1 again", b"error node_left")
        other.is_told_to(b"describe a.3", b"description stays  here ")
        shut_down(served, one.console, program.seconds)


def as_many_as_may_be(program):
    """65,536 processes are described, and no more, until one of them exits."""
    with served_to(program, "a") as served:
        one = Client(served)
        for at in range(0, MOST, 1024):
            serials = range(at + 1, at + 1025)
            lines = "".join(f"spawn\ndescribe a.{serial} worker {serial}\n" for serial in serials)
            one.is_told_all(lines.encode(), "".join(f"a.{serial}\nok\n" for serial in serials).encode())
        one.is_told_to(b"spawn", f"a.{MOST + 1}".encode())
        one.is_told_to(f"describe a.{MOST + 1} one too many".encode(), b"error too_many_descriptions")
        one.is_told_to(b"describe a.7 another text", b"ok")
        one.is_told_to(b"exit a.9", b"ok")
        one.is_told_to(f"describe a.{MOST + 1} the last".encode(), b"ok")
        one.is_told_to(f"describe a.{MOST + 1}".encode(), b"description the last")
        one.is_told_to(b"describe a.8", b"description worker 8")
        shut_down(served, one.console, program.seconds)


def waits_end_when_it_is_so(program):
    """One waits for a name that another node's process gets, one until it isn't that process's, one until a node leaves."""
    with served_to(program, "a,b,c") as served:
        owner, first, second, third = [Client(served, node) for node in "abca"]
        owner.is_told_to(b"spawn_link", b"a.1")
        third.is_told_to(b"wait x a.1", b"ok")
        first.begins(b"wait x")
        second.begins(b"wait x")
        owner.is_told_to(b"register x a.1", b"yes")
        first.is_told(b"a.1", SOON)
        second.is_told(b"a.1", SOON)
        first.is_told_to(b"wait x", b"a.1")
        first.begins(b"wait x a.1")
        third.is_told_to(b"wait x a.2", b"ok")
        second.is_told_to(b"spawn_link", b"c.1")
        second.is_told_to(b"re_register x c.1", b"yes")
        first.is_told(b"ok", SOON)
        first.begins(b"wait x c.1")
        second.is_told_to(b"leave", b"ok")
        first.is_told(b"ok", SOON)
        first.begins(b"wait x")
        third.console.say(b"whereis x\nwait x\n")
        third.is_told(b"undefined")
        owner.is_told_to(b"register x a.1", b"yes")
        first.is_told(b"a.1", SOON)
        third.is_told(b"a.1", SOON)
        shut_down(served, owner.console, program.seconds)


def waits_end_with_the_node_and_the_server(program):
    """A node leaves at which one waits, and then the server ends while another does."""
    with served_to(program) as served:
        one, two, three = Client(served), Client(served, "b"), Client(served, "b")
        one.begins(b"wait x")
        two.begins(b"wait x")
        three.is_told_to(b"leave", b"ok")
        two.is_told(b"error node_left")
        two.is_told_to(b"wait x", b"error node_left")
        two.is_told_to(b"wait x a.1", b"error node_left")
        two.is_told_to(b"shutdown", b"ok")
        one.is_told(b"error closed")
        served.expect_closed()


def wait_of_a_client_that_goes_is_given_up(program):
    """At a socket a client goes that waits: another console has its place."""
    with served_to(program, "a", 2) as served:
        one, two = Client(served), Client(served)
        two.begins(b"wait x")
        two.console.go()
        three = until_there_is_a_place(served, attach(), program.seconds)
        expect_same("an answer", b"undefined", hears(three, b"whereis x", program.seconds))
        shut_down(served, one.console, program.seconds)


def wait_behind_the_end_of_the_input(program, *options):
    """A client that sends nothing more waits on and is answered; but where a process is linked to its console, that exits, and the wait is
    given up."""
    with served_to(program, "a", 3, options) as served:
        owner, reader, linked = [Client(served, "a", options) for _ in range(3)]
        linked.is_told_to(b"spawn_link", b"a.1")
        linked.is_told_to(b"register y a.1", b"yes")
        reader.begins(b"wait x")
        linked.begins(b"wait x")
        linked.console.end_input()
        linked.is_told(b"error closed")
        owner.is_told_to(b"wait y a.1", b"ok")
        reader.console.end_input()
        owner.is_told_to(b"spawn", b"a.2")
        owner.is_told_to(b"register x a.2", b"yes")
        reader.is_told(b"a.2", SOON)
        shut_down(served, owner.console, program.seconds)


def tests(program, root):
    for test in [
        description_goes_with_its_process,
        as_many_as_may_be,
        waits_end_when_it_is_so,
        waits_end_with_the_node_and_the_server,
        wait_of_a_client_that_goes_is_given_up,
    ]:
        yield Test(f"described/{test.__name__}", partial(test, program))
    for name, options in [("at_a_socket", ()), ("over_tcp", ("--cookie", COOKIE))]:
        test = partial(wait_behind_the_end_of_the_input, program, *options)
        yield Test(f"described/wait_behind_the_end_of_the_input_{name}", test)
