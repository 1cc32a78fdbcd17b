"""Talks: what consoles at one served cluster say and hear, in order. README.md tells of their form."""

import os
import re
import time
from contextlib import suppress
from dataclasses import dataclass
from functools import partial
from threading import Thread

from .made import MOST_LINES
from .outcomes import Failure, Test, expect_same, shown
from .served import Console, Served, listen_to

STEP = re.compile(rb"(\d+(?:,\d+)*)([<>]) ?(.*)", re.S)
CLOSED = re.compile(rb"closed(?: (\d+))?(?: to (\d+))?")
END = b"(end)"
GONE = b"(gone)"


@dataclass(frozen=True)
class Step:
    place: int
    consoles: tuple
    is_said: bool
    text: bytes


@dataclass(frozen=True)
class Talk:
    options: list
    steps: list
    least: int
    most: int


def unescaped(text):
    """A text in which `\\xNN` stands for a byte."""
    return re.sub(rb"\\x([0-9a-f]{2})", lambda found: bytes([int(found[1], 16)]), text)


def read_step(place, line):
    found = STEP.fullmatch(line)
    if not found:
        raise Failure(f"line {place} of the talk is no step: {shown(line)}")
    consoles = tuple(int(it) for it in found[1].split(b","))
    return Step(place, consoles, found[2] == b">", unescaped(found[3]))


def read_talk(text):
    """Reads a talk: the options of `serve`, steps, and how the cluster is closed."""
    options, *steps, last = text.removesuffix(b"\n").split(b"\n")
    closed = CLOSED.fullmatch(last)
    if not closed:
        raise Failure(f"the talk ends with {shown(last)}, and not with `closed`")
    least = int(closed[1] or 0)
    most = int(closed[2] or closed[1]) if closed[1] else None
    steps = [read_step(place, line) for place, line in enumerate(steps, 2) if not line.startswith(b"#")]
    return Talk(options.decode().split(), steps, least, most)


def say(console, text):
    """Says a line, or what stands in place of one."""
    if text == GONE:
        console.go()
    elif text.endswith(END):
        console.say(text[: -len(END)].removesuffix(b" "))
        console.end_input()
    else:
        console.say(text + b"\n")


def state_of(console):
    """What a console hears next, as it is told."""
    if console.next_line() is not None:
        return shown(console.next_line())
    if console.has_ended:
        return "its end" if not console.heard else f"its end behind {shown(console.heard)}"
    return "nothing in time"


def hear(consoles, step, seconds):
    """One of the consoles hears this line next, or its end."""

    def hears(console):
        if step.text == END:
            return console.has_ended and not console.heard
        return console.next_line() == step.text

    def is_known():
        return any(map(hears, consoles)) or all(it.next_line() is not None for it in consoles)

    listen_to(consoles, is_known, seconds)
    found = [it for it in consoles if hears(it)]
    if not found:
        told = ", ".join(map(state_of, consoles))
        raise Failure(f"line {step.place}: expected {shown(step.text)}, got {told}")
    if step.text != END:
        found[0].take_line()


def hear_ends(consoles, seconds):
    """Each console that isn't gone hears no more than its end."""
    for number, it in sorted(consoles.items()):
        if it.stream.fileno() >= 0:
            listen_to([it], lambda: it.has_ended or it.next_line() is not None, seconds)
            if it.heard or not it.has_ended:
                raise Failure(f"console {number}: expected its end, got {state_of(it)}")


def play(program, path):
    """Plays a talk."""
    with open(path, "rb") as file:
        talk = read_talk(file.read())
    consoles = {}
    with Served(program, talk.options) as served:
        for step in talk.steps:
            for number in step.consoles:
                if number not in consoles:
                    consoles[number] = Console(served)
            taking_part = [consoles[number] for number in step.consoles]
            if not step.is_said:
                hear(taking_part, step, program.seconds)
                continue
            for it in taking_part:
                say(it, step.text)
        hear_ends(consoles, program.seconds)
        served.expect_closed(talk.least, talk.most)


def a_million_lines(program):
    """As many are answered, and the next one ends the console."""
    with Served(program, ["--nodes", "a", "--consoles", "1"]) as served:
        console = Console(served)
        lines = b"attach a\n" + b"\n" * (MOST_LINES + 1)
        sender = Thread(target=console.say, args=[lines], daemon=True)
        sender.start()
        listen_to([console], lambda: console.has_ended, program.seconds)
        expect_same("the answers", b"ok\n" + b"error bad_line\n" * MOST_LINES, console.heard)
        sender.join()
        served.expect_closed(most=0)


def one_too_many(program):
    """Who comes behind the last console is told by the system that nobody listens, and doesn't wait until that console has ended."""
    with Served(program, ["--nodes", "a", "--consoles", "1"]) as served:
        console = Console(served)
        console.say(b"attach a\n")
        listen_to([console], lambda: console.heard == b"ok\n", program.seconds)
        expect_same("the answer", b"ok\n", console.heard)
        with suppress(ConnectionRefusedError):
            late = Console(served)
            if not listen_to([late], lambda: late.has_ended, program.seconds) or late.heard:
                raise Failure(f"a console too many: expected its end, got {state_of(late)}")
        console.say(b"quit\n")
        served.expect_closed(most=0)


def a_million_lines_and_more(program):
    """A server that stays answers as many lines as come."""
    with Served(program, ["--stay", "--nodes", "a", "--consoles", "1"]) as served:
        console = Console(served)
        lines = b"attach a\n" + b"\n" * (MOST_LINES + 1) + b"shutdown\n"
        sender = Thread(target=console.say, args=[lines], daemon=True)
        sender.start()
        listen_to([console], lambda: console.has_ended, program.seconds)
        expect_same("the answers", b"ok\n" + b"error bad_line\n" * (MOST_LINES + 1) + b"ok\n", console.heard)
        sender.join()
        served.expect_closed(most=0)


def one_too_many_at_a_server_that_stays(program):
    """Who comes beside the last console is told so, and the server tells of each."""
    with Served(program, ["--stay", "--nodes", "a", "--consoles", "1", "--idle", "31536000"]) as served:
        console = Console(served)
        expect_same("an answer", b"ok", hears(console, b"attach a", program.seconds))
        late = Console(served)
        listen_to([late], lambda: late.has_ended, program.seconds)
        expect_same("the answer to one too many", b"error too_many_consoles\n", late.heard)
        expect_same("an answer", b"ok", hears(console, b"shutdown", program.seconds))
        served.expect_closed(most=0, told=b"console 1 taken\ntoo_many_consoles\nconsole 1 a ended shutdown\n")


def consoles_are_told_of(program):
    """A server that stays tells of each console that came, and how it ended."""
    with Served(program, ["--stay", "--nodes", "a", "--consoles", "1"]) as served:
        for lines, answers in [(b"attach a\nspawn\nquit\n", b"ok\na.1\nok\n"), (b"attach a\nshutdown\n", b"ok\nok\n")]:
            console = Console(served)
            console.say(lines)
            listen_to([console], lambda: console.has_ended, program.seconds)
            expect_same("the answers", answers, console.heard)
        told = b"console 1 taken\nconsole 1 a ended quit\nconsole 2 taken\nconsole 2 a ended shutdown\n"
        served.expect_closed(least=1, most=1, told=told)


def seventy_in_turn(program):
    """More consoles than there are seats, one after the other: each gives its seat back."""
    with Served(program, ["--stay", "--nodes", "a", "--consoles", "2"]) as served:
        for number in range(1, 71):
            console = Console(served)
            console.say(b"attach a\nspawn\nquit\n")
            listen_to([console], lambda: console.has_ended, program.seconds)
            expect_same(f"the answers of console {number}", b"ok\na.%d\nok\n" % number, console.heard)
        console = Console(served)
        console.say(b"attach a\nshutdown\n")
        listen_to([console], lambda: console.has_ended, program.seconds)
        expect_same("the answers of the last", b"ok\nok\n", console.heard)
        served.expect_closed(least=70, most=70)


def hears(console, line, seconds):
    """What a console is answered to a line."""
    console.say(line + b"\n")
    if not listen_to([console], lambda: console.next_line() is not None, seconds):
        raise Failure(f"no answer to {shown(line)} in time")
    answer = console.next_line()
    console.take_line()
    return answer


def client_goes_while_its_call_waits(program, *options):
    """A client goes whose linked process waits for a lock: the process exits soon, though the lock stays where it is."""
    with Served(program, ["--stay", "--nodes", "a", "--consoles", "2", *options]) as served:
        attach = b"attach a " + options[1].encode() if options else b"attach a"
        first, second = Console(served), Console(served)
        for line, answer in [(attach, b"ok"), (b"spawn", b"a.1"), (b"set_lock a.1 leader one all 0", b"true")]:
            expect_same("an answer", answer, hears(first, line, program.seconds))
        for line, answer in [(attach, b"ok"), (b"spawn_link", b"a.2")]:
            expect_same("an answer", answer, hears(second, line, program.seconds))
        second.say(b"set_lock self leader two all infinity\n")
        ask = b"set_lock a.2 leader two all 0"
        # It is busy where the lock is just being tried for.
        refusals = (b"false", b"error busy")
        if (found := hears(first, ask, program.seconds)) not in refusals:
            raise Failure(f"expected false or error busy while it waits, got {shown(found)}")
        second.go()
        until = time.monotonic() + program.seconds
        while found in refusals and time.monotonic() < until:
            found = hears(first, ask, program.seconds)
        expect_same("the answer when its client has gone", b"error not_live", found)
        # What was given up has no part in the lock.
        for line, answer in [(b"del_lock a.1 leader one all", b"true"), (b"spawn", b"a.3"), (b"set_lock a.3 leader three all 0", b"true")]:
            expect_same("an answer", answer, hears(first, line, program.seconds))
        expect_same("an answer", b"ok", hears(first, b"shutdown", program.seconds))
        served.expect_closed()


def expect_status(console, text, seconds):
    """A console is answered this to `status`, in which `*` stands for any number; and the server has some memory."""
    answer = hears(console, b"status", seconds)
    wanted = re.escape(text).replace(rb"\*", rb"\d+") + rb" memory (\d+)"
    found = re.fullmatch(wanted, answer)
    if not found or int(found[1]) < 1_000_000:
        raise Failure(f"the status: expected {shown(text)} and some memory, got {shown(answer)}")


def statuses(program):
    """What `status` tells of nodes that are joined, alone and have left, and of consoles that come and go."""
    with Served(program, ["--stay", "--nodes", "a,b", "--lone", "c", "--consoles", "3"]) as served:
        seconds = program.seconds
        first = Console(served)
        expect_same("an answer", b"ok", hears(first, b"attach a", seconds))
        expect_status(first, b"status a joined members a,b names 0 locks 0 calls 0 serials 0 spans 0 consoles 1 steps 0", seconds)
        talk = [(b"spawn", b"a.1"), (b"spawn", b"a.2"), (b"spawn", b"a.3"), (b"set_lock a.1 r q a 0", b"true"), (b"exit a.2", b"ok")]
        for line, answer in talk:
            expect_same("an answer", answer, hears(first, line, seconds))
        expect_status(first, b"status a joined members a,b names 0 locks 1 calls 1 serials 3 spans 1 consoles 1 steps *", seconds)
        expect_same("an answer", b"yes", hears(first, b"register x a.1", seconds))
        expect_status(first, b"status a joined members a,b names 1 locks * calls 2 serials 3 spans 1 consoles 1 steps *", seconds)
        alone = Console(served)
        expect_same("an answer", b"ok", hears(alone, b"attach c", seconds))
        expect_status(alone, b"status c lone members c names 0 locks 0 calls 0 serials 0 spans 0 consoles 2 steps 0", seconds)
        expect_same("an answer", b"joined", hears(alone, b"join a", seconds))
        expect_status(alone, b"status c joined members a,b,c names 1 locks * calls 1 serials 0 spans 0 consoles 2 steps *", seconds)
        other = Console(served)
        for line, answer in [(b"attach b", b"ok"), (b"leave", b"ok"), (b"status", b"error node_left"), (b"quit", b"ok")]:
            expect_same("an answer", answer, hears(other, line, seconds))
        listen_to([other], lambda: other.has_ended, seconds)
        expect_same("an answer", b"error bad_line", hears(alone, b"status c", seconds))
        expect_same("an answer", b"ok", hears(alone, b"quit", seconds))
        listen_to([alone], lambda: alone.has_ended, seconds)
        until, members = time.monotonic() + seconds, b"a,b,c"
        while members != b"a,c" and time.monotonic() < until:
            members = hears(first, b"status", seconds).split()[4]
        expect_status(first, b"status a joined members a,c names 1 locks * calls 2 serials 3 spans 1 consoles 1 steps *", seconds)
        expect_same("an answer", b"ok", hears(first, b"shutdown", seconds))
        served.expect_closed()


def tests(program, root):
    folder = f"{root}/tests/consoles"
    for name in sorted(os.listdir(folder)):
        yield Test(f"consoles/{name}", partial(play, program, f"{folder}/{name}"))
    yield Test("consoles/a_million_lines", partial(a_million_lines, program))
    yield Test("consoles/a_million_lines_and_more", partial(a_million_lines_and_more, program))
    yield Test("consoles/one_too_many", partial(one_too_many, program))
    yield Test("consoles/one_too_many_at_a_server_that_stays", partial(one_too_many_at_a_server_that_stays, program))
    yield Test("consoles/consoles_are_told_of", partial(consoles_are_told_of, program))
    yield Test("consoles/seventy_in_turn", partial(seventy_in_turn, program))
    yield Test("consoles/statuses", partial(statuses, program))
    yield Test("consoles/client_goes_at_a_socket", partial(client_goes_while_its_call_waits, program))
    over_tcp = partial(client_goes_while_its_call_waits, program, "--cookie", "0123456789abcdef")
    yield Test("consoles/client_goes_over_tcp", over_tcp)
