"""Tests of turns: in which order lock calls are granted that wait at a server that stays.

Each contender is a console with a linked process of its own, whose requester no other has. Processes get their serials in the order in
which contenders come, and a node that several calls wait at would let the least of them have the lock.
"""

import time
from concurrent.futures import ThreadPoolExecutor
from functools import partial

from .outcomes import Failure, Test, expect_same
from .served import Console, Served, listen_to
from .talks import hears
from .waits import attach, shut_down

# How long a call takes at most to come to its place in the line, where nothing is answered by which that could be seen.
ON_THE_WAY = 0.3
# For how long contenders take turns, how long each holds the lock, and how long it rests then.
CONTENTION, HOLD, REST = 6, 0.010, 0.005


class Contender:
    """A console at a node, with a process that is linked to it."""

    def __init__(self, served, name, node="a"):
        self.seconds = served.seconds
        self.name = name
        self.console = Console(served)
        expect_same("an answer", b"ok", hears(self.console, attach(node=node), self.seconds))
        self.process = hears(self.console, b"spawn_link", self.seconds)

    def wants(self, retries="infinity", nodes="all"):
        return f"set_lock self r {self.name} {nodes} {retries}".encode()

    def asks(self, nodes="all"):
        """Asks for the lock, and waits for as long as its call may take to be in the line."""
        self.console.say(self.wants(nodes=nodes) + b"\n")
        time.sleep(ON_THE_WAY)

    def takes(self, retries="infinity", nodes="all"):
        """Asks for the lock, and has it at once."""
        expect_same(f"the answer to {self.name}", b"true", hears(self.console, self.wants(retries, nodes), self.seconds))

    def is_told(self, answer):
        """Hears this answer to what it asked."""
        listen_to([self.console], lambda: self.console.next_line() is not None, self.seconds)
        expect_same(f"what {self.name} is told", answer, self.console.next_line() or b"nothing")
        self.console.take_line()

    def waits(self):
        """Has heard nothing yet."""
        if listen_to([self.console], lambda: self.console.next_line() is not None, ON_THE_WAY):
            raise Failure(f"{self.name} was told `{self.console.heard.decode()}`, and was to wait")

    def gives_back(self, nodes="all"):
        line = f"del_lock self r {self.name} {nodes}".encode()
        expect_same(f"the answer to {self.name}", b"true", hears(self.console, line, self.seconds))


def served_to(program, nodes="a"):
    return Served(program, ["--stay", "--nodes", nodes, "--consoles", "8"])


def calls_are_granted_in_order(program, nodes):
    """Five ask one after another, the one with the greatest serial first: they are granted in that order."""
    with served_to(program, nodes) as served:
        parts = nodes.split(",")
        all = [Contender(served, f"c{at}", parts[at % len(parts)]) for at in range(6)]
        holder, order = all[0], all[:0:-1]
        holder.takes()
        for it in order:
            it.asks()
        for it, others in [(it, order[at + 1 :]) for at, it in enumerate(order)]:
            holder.gives_back()
            it.is_told(b"true")
            for other in others:
                if other.console.heard:
                    raise Failure(f"{other.name} was told something before its turn")
            holder = it
        shut_down(served, holder.console, program.seconds)


def contend(contender, until):
    """Takes the lock again and again, holds it for a while and rests: how often it was granted."""
    grants = 0
    while time.monotonic() < until:
        contender.takes()
        grants += 1
        time.sleep(HOLD)
        contender.gives_back()
        time.sleep(REST)
    return grants


def contenders_take_turns(program):
    """Four contend for some seconds: each has the lock for a tenth of all times at least."""
    with served_to(program) as served:
        contenders = [Contender(served, f"c{at}") for at in range(4)]
        until = time.monotonic() + CONTENTION
        with ThreadPoolExecutor(len(contenders)) as pool:
            grants = list(pool.map(lambda it: contend(it, until), contenders))
        if min(grants) * 10 < sum(grants) or sum(grants) < 4:
            raise Failure(f"the lock was granted {grants} times")
        shut_down(served, contenders[0].console, program.seconds)


def nested_calls_pass(program):
    """Who has the lock takes it again while another waits, at its own console and at another one, and so does the one that is next."""
    with served_to(program) as served:
        one, two, three = [Contender(served, name) for name in ["one", "two", "three"]]
        one.takes()
        two.asks()
        three.asks()
        one.takes()
        beside = Contender(served, "one")
        beside.takes()
        beside.gives_back()
        for _ in range(2):
            two.waits()
            one.gives_back()
        two.is_told(b"true")
        two.takes()
        three.waits()
        for _ in range(2):
            two.gives_back()
        three.is_told(b"true")
        shut_down(served, one.console, program.seconds)


def who_goes_leaves_the_line(program):
    """Clients go whose calls wait: the one that is next, and one behind it. Who waits behind them has the lock then."""
    with served_to(program) as served:
        holder, next, last, gone = [Contender(served, name) for name in ["holder", "next", "last", "gone"]]
        holder.takes()
        for it in [next, gone, last]:
            it.asks()
        gone.console.go()
        next.console.go()
        time.sleep(ON_THE_WAY)
        holder.gives_back()
        last.is_told(b"true")
        holder.asks()
        last.console.go()
        holder.is_told(b"true")
        shut_down(served, holder.console, program.seconds)


def dead_process_waits_no_more(program):
    """A process dies whose call waits in the line: that is told at once."""
    with served_to(program) as served:
        holder, next, last = [Contender(served, name) for name in ["holder", "next", "last"]]
        holder.takes()
        next.asks()
        last.asks()
        expect_same("an answer", b"ok", hears(holder.console, b"exit " + last.process, program.seconds))
        last.is_told(b"error not_live")
        holder.gives_back()
        next.is_told(b"true")
        shut_down(served, holder.console, program.seconds)


def other_nodes_are_other_lines(program):
    """Calls for one resource at other nodes don't wait for each other, nor behind one that names a node that isn't there."""
    with served_to(program, "a,b") as served:
        holder, next, other, wrong = [Contender(served, name) for name in ["holder", "next", "other", "wrong"]]
        holder.takes(nodes="b")
        next.asks(nodes="b")
        other.takes(nodes="a")
        expect_same("an answer", b"error unknown_node", hears(wrong.console, wrong.wants(nodes="b,c"), program.seconds))
        holder.gives_back(nodes="b")
        next.is_told(b"true")
        shut_down(served, holder.console, program.seconds)


def shutdown_ends_those_that_wait(program):
    """The server ends while calls wait: each is answered. The lock is a process's that is linked to no console, so it isn't free before."""
    with served_to(program) as served:
        holder, next, last = [Contender(served, name) for name in ["holder", "next", "last"]]
        process = hears(holder.console, b"spawn", program.seconds)
        lock = b"set_lock " + process + b" r holder all infinity"
        expect_same("an answer", b"true", hears(holder.console, lock, program.seconds))
        next.asks()
        last.asks()
        expect_same("an answer", b"ok", hears(holder.console, b"shutdown", program.seconds))
        next.is_told(b"error closed")
        last.is_told(b"error closed")
        served.expect_closed()


def tests(program, root):
    for name, nodes in [("at_a_node", "a"), ("over_two_nodes", "a,b")]:
        yield Test(f"turns/calls_are_granted_in_order_{name}", partial(calls_are_granted_in_order, program, nodes))
    for test in [
        contenders_take_turns,
        nested_calls_pass,
        who_goes_leaves_the_line,
        dead_process_waits_no_more,
        other_nodes_are_other_lines,
        shutdown_ends_those_that_wait,
    ]:
        yield Test(f"turns/{test.__name__}", partial(test, program))
