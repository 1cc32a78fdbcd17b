"""Tests that press a server that stays: nobody reads what it tells, first lines come byte by byte or not at all, answers aren't read, descriptors
are out."""

import fcntl
import os
import re
import resource
import subprocess
import tempfile
import time
from contextlib import suppress
from functools import partial

from .outcomes import Failure, Test, expect_same, expect_status, shown
from .programs import run
from .served import PIPES, Console, Served, listen_to, wait_for
from .talks import hears
from .waits import OVER_TCP, attach, shut_down, until_there_is_a_place

# The number by which Linux sets how many bytes a pipe holds, and the least that it takes.
SET_PIPE_SIZE = 1031
LEAST_PIPE = 4096
# How many seconds a first line may take in all, and how much later its end may be seen here.
FIRST_LINE = 10
LATER = 4


class Unread(Served):
    """One whose standard error is a pipe of 4 kB that is read only when it is asked for."""

    def start(self, words):
        self.told, end = os.pipe()
        fcntl.fcntl(end, SET_PIPE_SIZE, LEAST_PIPE)
        self.process = subprocess.Popen(words, bufsize=0, **{**PIPES, "stderr": end})
        os.close(end)

    def take_told(self):
        """What was told since it was read last, as far as it was written."""
        os.set_blocking(self.told, False)
        told = b""
        with suppress(BlockingIOError):
            while part := os.read(self.told, 1 << 16):
                told += part
        return told

    def end(self):
        output = super().end()[0]
        return output, b""

    def __exit__(self, *_):
        super().__exit__()
        os.close(self.told)


def visit(served, seconds):
    """A console that comes, asks one thing and goes."""
    console = until_there_is_a_place(served, attach(), seconds)
    expect_same("an answer", b"undefined", hears(console, b"whereis x", seconds))
    expect_same("an answer", b"ok", hears(console, b"quit", seconds))
    console.go()


def until_told(served, wanted, seconds):
    """Reads what the server tells until a line is such a one."""
    told, until = b"", time.monotonic() + seconds
    while time.monotonic() < until:
        told += served.take_told()
        if any(wanted(line) for line in told.split(b"\n")):
            return
        time.sleep(0.05)
    raise Failure(f"it wasn't told in time: {told[-300:]!r}")


def says_how_many_less(line):
    words = line.split()
    return len(words) == 4 and words[0] == b"told" and words[1].isdigit() and words[2:] == [b"lines", b"less"]


def unread_lines_hold_nobody_up(program):
    """Two hundred consoles come and go while nobody reads what is told of them; then it is told how many lines were dropped."""
    with Unread(program, ["--stay", "--nodes", "a", "--consoles", "2"]) as served:
        for _ in range(200):
            visit(served, program.seconds)
        served.take_told()
        visit(served, program.seconds)
        until_told(served, says_how_many_less, program.seconds)
        console = until_there_is_a_place(served, attach(), program.seconds)
        shut_down(served, console, program.seconds)


def first_line_by_bytes_is_ended(program, *options):
    """A first line that comes a byte at a time has ten seconds in all; the place is free then."""
    with Served(program, ["--stay", "--nodes", "a", "--consoles", "1", *options]) as served:
        slow = Console(served)
        since = time.monotonic()
        while not slow.has_ended:
            slow.say(b"a")
            listen_to([slow], lambda: False, 1)
            if time.monotonic() - since > FIRST_LINE + LATER:
                raise Failure("a first line that comes byte by byte is waited for still")
        console = until_there_is_a_place(served, attach(options), program.seconds)
        shut_down(served, console, program.seconds)


def silent_connections_keep_nobody_out(program):
    """Ten connections over TCP say nothing and show no cookie: as many clients as there are places come in all the same, and no more."""
    with Served(program, ["--stay", "--nodes", "a", "--consoles", "2", *OVER_TCP]) as served:
        seconds = program.seconds
        silent = [Console(served) for _ in range(10)]
        consoles = [Console(served) for _ in range(2)]
        for console in consoles:
            expect_same("an answer", b"ok", hears(console, attach(OVER_TCP), seconds))
        for console in consoles:
            expect_same("an answer", b"2", hears(console, b"status", seconds).split()[16])
        late = Console(served)
        listen_to([late], lambda: late.has_ended, seconds)
        expect_same("the answer to one too many", b"error too_many_consoles\n", late.heard)
        for it in silent:
            it.go()
        shut_down(served, consoles[0], seconds)


def last_place_is_taken_before(program):
    """Of two that came while one place was free who is attached first has it, and the other is told so; then it is free again."""
    with Served(program, ["--stay", "--nodes", "a", "--consoles", "1"]) as served:
        seconds = program.seconds
        late, first = Console(served), Console(served)
        expect_same("an answer", b"ok", hears(first, attach(), seconds))
        late.say(attach() + b"\nspawn\n")
        listen_to([late], lambda: late.has_ended, seconds)
        expect_same("the answer to one too many", b"error too_many_consoles\n", late.heard)
        expect_same("an answer", b"a.1", hears(first, b"spawn", seconds))
        expect_same("an answer", b"ok", hears(first, b"quit", seconds))
        listen_to([first], lambda: first.has_ended, seconds)
        last = Console(served)
        expect_same("an answer", b"ok", hears(last, attach(), seconds))
        shut_down(served, last, seconds)


def lines_in_one_piece_are_answered(program):
    """A thousand lines are sent in one piece, and no answer is read for a while: all are answered."""
    with Served(program, ["--stay", "--nodes", "a", "--consoles", "1"]) as served:
        console = Console(served)
        expect_same("an answer", b"ok", hears(console, attach(), program.seconds))
        console.say(b"whereis x\n" * 1000)
        time.sleep(1)
        wanted = b"undefined\n" * 1000
        listen_to([console], lambda: len(console.heard) >= len(wanted), program.seconds)
        expect_same("the answers", wanted, console.heard)
        console.heard = b""
        shut_down(served, console, program.seconds)


def answers_before_a_lock_that_waits(program):
    """Lines are sent in one piece, the last of which waits for a lock: those before it are answered meanwhile."""
    with Served(program, ["--stay", "--nodes", "a", "--consoles", "2"]) as served:
        seconds = program.seconds
        holder, waiter = Console(served), Console(served)
        for line, answer in [(attach(), b"ok"), (b"spawn", b"a.1"), (b"set_lock a.1 r one all 0", b"true")]:
            expect_same("an answer", answer, hears(holder, line, seconds))
        waiter.say(b"%s\nspawn_link\nwhereis x\nset_lock self r two all infinity\n" % attach())
        wanted = b"ok\na.2\nundefined\n"
        listen_to([waiter], lambda: len(waiter.heard) >= len(wanted), seconds)
        expect_same("the answers before it", wanted, waiter.heard)
        expect_same("an answer", b"true", hears(holder, b"del_lock a.1 r one all", seconds))
        shut_down(served, holder, seconds)


def few_descriptors(program):
    """Where descriptors are few, those who get one are served, and the others are once there is one again."""
    with Served(program, ["--stay", "--nodes", "a", "--consoles", "16"]) as served:
        seconds = program.seconds
        resource.prlimit(served.process.pid, resource.RLIMIT_NOFILE, (16, 16))
        consoles = [Console(served) for _ in range(16)]
        for console in consoles:
            console.say(attach() + b"\n")
        listen_to(consoles, lambda: sum(it.heard == b"ok\n" for it in consoles) >= 4, seconds)
        if any(it.has_ended for it in consoles):
            raise Failure("a connection was ended without an answer")
        for console in consoles:
            console.go()
        console = until_there_is_a_place(served, attach(), seconds)
        shut_down(served, console, seconds)


def under(limits, words):
    """The words that run a program under limits of the shell, as `-n 16`."""
    return ["sh", "-c", f'ulimit {limits} && exec "$@"', "sh", *words]


class Limited(Served):
    """One under limits: that may have sixteen descriptors open."""

    limits = "-n 16"

    def start(self, words):
        super().start(under(self.limits, words))


def few_descriptors_at_the_start(program):
    """Where there are too few descriptors for all consoles the server says for how many they serve, and these are served at once."""
    with Limited(program, ["--stay", "--nodes", "a", "--consoles", "16"]) as served:
        seconds = program.seconds
        wait_for(served.process.stderr, time.monotonic() + seconds, "line on standard error")
        line = served.process.stderr.readline()
        found = re.fullmatch(rb"descriptors for (\d+) of 16 consoles\n", line)
        if not found or not 4 <= int(found[1]) < 16:
            raise Failure(f"expected for how many consoles the descriptors serve, got {shown(line)}")
        consoles = [Console(served) for _ in range(int(found[1]))]
        for console in consoles:
            expect_same("an answer", b"ok", hears(console, attach(), seconds))
        status = hears(consoles[-1], b"status", seconds).split()
        expect_same("how many consoles there are", found[1], status[16])
        if int(status[20]) == 0:
            raise Failure("there is no descriptor left to see how much memory it has")
        shut_down(served, consoles[0], seconds)


def threads_that_cannot_be_had(program, consoles):
    """A server that stays whose threads can't be had, for want of room for their stacks, says so, and doesn't say that it listens."""
    with tempfile.TemporaryDirectory(prefix="pressed-") as folder:
        words = [program.path, "serve", "--stay", "--listen", f"unix:{folder}/socket", "--nodes", "a", "--consoles", consoles]
        ran = run(under("-v 400000", words), program.seconds)
        expect_same("standard output", b"", ran.stdout)
        expect_same("standard error", b"error: no memory or no threads for so many nodes and consoles\n", ran.stderr)
        expect_status(1, ran.returncode)
        expect_same("what is left in the folder", b"", os.fsencode(" ".join(os.listdir(folder))))


def tests(program, root):
    yield Test("pressed/unread_lines_hold_nobody_up", partial(unread_lines_hold_nobody_up, program))
    yield Test("pressed/first_line_by_bytes_is_ended_at_a_socket", partial(first_line_by_bytes_is_ended, program))
    yield Test("pressed/first_line_by_bytes_is_ended_over_tcp", partial(first_line_by_bytes_is_ended, program, *OVER_TCP))
    for test in [
        silent_connections_keep_nobody_out,
        last_place_is_taken_before,
        lines_in_one_piece_are_answered,
        answers_before_a_lock_that_waits,
        few_descriptors,
        few_descriptors_at_the_start,
    ]:
        yield Test(f"pressed/{test.__name__}", partial(test, program))
    for consoles in ["64", "1024"]:
        yield Test(f"pressed/threads_that_cannot_be_had_for_{consoles}", partial(threads_that_cannot_be_had, program, consoles))
