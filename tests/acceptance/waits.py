"""Tests that wait: what a server that stays does while nobody says anything, or when who waits has gone.

A connection whose first line doesn't come is ended after ten seconds; behind that line it may be silent for as long as it likes, and so
may all who could come.
"""

import time
from functools import partial

from .outcomes import Failure, Test, expect_same
from .served import Console, Served, listen_to
from .talks import hears

# For longer than a first line may take.
SILENCE = 12
COOKIE = "0123456789abcdef"
OVER_TCP = ("--cookie", COOKIE)


def attach(options=(), node="a"):
    """The line that attaches a console, with the cookie where there is one."""
    return f"attach {' '.join([node, *options[1:]])}".encode()


def shut_down(served, console, seconds):
    expect_same("an answer", b"ok", hears(console, b"shutdown", seconds))
    served.expect_closed()


def silent_console_goes_on(program, *options):
    """A console that is silent behind its first line is served when it speaks."""
    with Served(program, ["--stay", "--nodes", "a", "--consoles", "1", *options]) as served:
        console = Console(served)
        expect_same("an answer", b"ok", hears(console, attach(options), program.seconds))
        time.sleep(SILENCE)
        expect_same("the answer behind the silence", b"undefined", hears(console, b"whereis x", program.seconds))
        shut_down(served, console, program.seconds)


def idle_server_stays(program, *options):
    """A server to which nobody comes, or whose only client has gone, is still there."""
    with Served(program, ["--stay", "--nodes", "a", "--consoles", "1", *options]) as served:
        for _ in range(2):
            time.sleep(SILENCE)
            console = Console(served)
            expect_same("an answer", b"ok", hears(console, attach(options), program.seconds))
            expect_same("an answer", b"undefined", hears(console, b"whereis x", program.seconds))
            expect_same("an answer", b"ok", hears(console, b"quit", program.seconds))
            console.go()
        console = until_there_is_a_place(served, attach(options), program.seconds)
        shut_down(served, console, program.seconds)


def idle_console_is_ended(program):
    """A console that is silent for longer than it may be ends, and another comes."""
    with Served(program, ["--stay", "--nodes", "a", "--consoles", "1", "--idle=1", *OVER_TCP]) as served:
        console = Console(served)
        expect_same("an answer", b"ok", hears(console, attach(OVER_TCP), program.seconds))
        if not listen_to([console], lambda: console.has_ended, program.seconds) or console.heard:
            raise Failure("the silent console has not ended in time, or was told something")
        next = Console(served)
        expect_same("an answer", b"ok", hears(next, attach(OVER_TCP), program.seconds))
        expect_same("an answer", b"ok", hears(next, b"shutdown", program.seconds))
        told = b"console 1 taken\nconsole 1 a ended read\nconsole 2 taken\nconsole 2 a ended shutdown\n"
        served.expect_closed(told=told)


def wrong_cookie_is_told_late(program):
    """Who doesn't show the cookie is told so after a second; who does, and names a node that there isn't, at once."""
    with Served(program, ["--stay", "--nodes", "a", "--consoles", "1", *OVER_TCP]) as served:
        for line, answer, least, most in [
            (b"attach a", b"error not_allowed", 1, program.seconds),
            (attach(OVER_TCP, "b"), b"error no_such_node", 0, 1),
        ]:
            console, begun = Console(served), time.monotonic()
            expect_same("an answer", answer, hears(console, line, program.seconds))
            taken = time.monotonic() - begun
            if not least <= taken < most:
                raise Failure(f"the answer to {line!r} came behind {taken} seconds")
            listen_to([console], lambda: console.has_ended, program.seconds)
        console = until_there_is_a_place(served, attach(OVER_TCP), program.seconds)
        shut_down(served, console, program.seconds)


def until_there_is_a_place(served, line, seconds):
    """A console that is attached, once the server has a place for it."""
    until = time.monotonic() + seconds
    while time.monotonic() < until:
        console = Console(served)
        if hears(console, line, seconds) == b"ok":
            return console
        console.go()
    raise Failure("there is no place for a console in time")


def until_it_is_tried_for(console, seconds):
    """Waits until somebody else's lock was tried for twice, each time by a call of the console's node."""

    def calls():
        words = hears(console, b"status", seconds).split()
        return int(words[words.index(b"calls") + 1])

    most = calls() + 2
    until = time.monotonic() + seconds
    while calls() < most:
        if time.monotonic() > until:
            raise Failure("no lock was tried for again in time")
        time.sleep(0.01)


def given_up_call_frees_its_place(program):
    """At a socket a client goes whose call waits for a lock, for a process that isn't linked: the call is given up, and another console has
    the place. Over TCP nobody can tell such a client from one that has only ended its input, so there its console waits."""
    with Served(program, ["--stay", "--nodes", "a", "--consoles", "2"]) as served:
        seconds = program.seconds
        first, second = Console(served), Console(served)
        for line, answer in [(attach(), b"ok"), (b"spawn", b"a.1"), (b"set_lock a.1 leader one all 0", b"true")]:
            expect_same("an answer", answer, hears(first, line, seconds))
        for line, answer in [(attach(), b"ok"), (b"spawn", b"a.2")]:
            expect_same("an answer", answer, hears(second, line, seconds))
        second.say(b"set_lock a.2 leader two all infinity\n")
        until_it_is_tried_for(first, seconds)
        second.go()
        third = until_there_is_a_place(served, attach(), seconds)
        expect_same("an answer", b"a.3", hears(third, b"spawn", seconds))
        shut_down(served, third, seconds)


def tests(program, root):
    for name, test in [("silent_console_goes_on", silent_console_goes_on), ("idle_server_stays", idle_server_stays)]:
        yield Test(f"waits/{name}_at_a_socket", partial(test, program))
        yield Test(f"waits/{name}_over_tcp", partial(test, program, *OVER_TCP))
    for test in [idle_console_is_ended, wrong_cookie_is_told_late, given_up_call_frees_its_place]:
        yield Test(f"waits/{test.__name__}", partial(test, program))
