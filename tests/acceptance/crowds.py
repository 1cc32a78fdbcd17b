"""Tests of crowds: more consoles at a server that stays than its cluster has seats.

A console has a seat only while a line of it is carried out at its node, so however many are silent, or wait for their turn, a lock or a name,
all others are served. Each test runs alone: a crowd would hold others up, and they the crowd.
"""

import re
import resource
import time
from functools import partial

from .outcomes import Failure, Test, expect_same, shown
from .pressed import Limited
from .served import Console, Served, listen_to, wait_for
from .talks import hears
from .waits import attach, shut_down

# More than the 64 seats of a cluster.
CROWD = 150
# How many consoles a server serves at most, and how many descriptors a test of so many needs, for either end of each and for all else.
MOST = 1024
DESCRIPTORS = 2 * MOST + 200
# How often each of a crowd does the same: on a slow machine that has other work a name call of a crowd takes tens of milliseconds.
ROUNDS = 3
# How many seconds one half of a crowd comes before the other.
HEAD_START = 3
# For how many seconds it is looked whether a second one is told that it has a lock which another has.
WATCH = 0.02


def attached(served, many, nodes="a"):
    """So many consoles, at these nodes by turns."""
    parts = nodes.split(",")
    consoles = []
    for at in range(many):
        # Its first line comes at once: who is silent for ten seconds is let go, and a slow machine may need as long for all the others.
        it = Console(served)
        expect_same("an answer", b"ok", hears(it, attach(node=parts[at % len(parts)]), served.seconds))
        consoles.append(it)
    return consoles


def served_to(program, nodes="a"):
    return Served(program, ["--stay", "--nodes", nodes, "--consoles", str(2 * CROWD)])


def is_told(console, answer, seconds):
    """Hears this answer to what it said before."""
    listen_to([console], lambda: console.next_line() is not None, seconds)
    expect_same("what a console is told", answer, console.next_line() or b"nothing")
    console.take_line()


def silent_consoles_hold_nobody_up(program, nodes):
    """Each of a crowd has asked something and is silent, and one more is served; then each of them is."""
    with served_to(program, nodes) as served:
        crowd = attached(served, CROWD, nodes)
        for it in crowd:
            expect_same("an answer", b"undefined", hears(it, b"whereis x", served.seconds))
        [one] = attached(served, 1)
        for line, answer in [(b"spawn", b"a.1"), (b"register x a.1", b"yes")]:
            expect_same("an answer", answer, hears(one, line, served.seconds))
        for it in crowd:
            it.say(b"wait x\n")
        for it in crowd:
            is_told(it, b"a.1", served.seconds)
        shut_down(served, one, served.seconds)


def each_finds_what_it_was_told(program, nodes):
    """Each of a crowd registers a name of its own, finds it, gives it up and doesn't find it, over and over and all at once: whichever seats
    answer a console, its look-ups are behind what it was told."""
    with served_to(program, nodes) as served:
        crowd = attached(served, CROWD, nodes)
        processes = [hears(it, b"spawn", served.seconds) for it in crowd]
        wanted = [b"yes\n%s\nok\nundefined\n" % it * ROUNDS for it in processes]
        for at, it in enumerate(crowd):
            it.say(b"register n%d %s\nwhereis n%d\nunregister n%d\nwhereis n%d\n" % (at, processes[at], at, at, at) * ROUNDS)
        listen_to(crowd, lambda: all(len(it.heard) >= len(all_of_it) for it, all_of_it in zip(crowd, wanted)), served.seconds)
        for it, all_of_it in zip(crowd, wanted):
            expect_same("what one of the crowd is told", all_of_it, it.heard)
            it.heard = b""
        shut_down(served, crowd[0], served.seconds)


def waiters_of_many_locks_hold_nobody_up(program):
    """Each of a crowd waits for a lock of its own, which another has; the last of these locks is given back, and its waiter has it."""
    with served_to(program) as served:
        holder, *crowd = attached(served, CROWD + 1)
        expect_same("an answer", b"a.1", hears(holder, b"spawn", served.seconds))
        for at in range(CROWD):
            expect_same("an answer", b"true", hears(holder, b"set_lock a.1 r%d holder all 0" % at, served.seconds))
        for at, it in enumerate(crowd):
            hears(it, b"spawn_link", served.seconds)
            it.say(b"set_lock self r%d w%d all infinity\n" % (at, at))
        expect_same("an answer", b"yes", hears(holder, b"register x a.1", served.seconds))
        last = crowd[-1]
        expect_same("an answer", b"true", hears(holder, b"del_lock a.1 r%d holder all" % (CROWD - 1), served.seconds))
        is_told(last, b"true", served.seconds)
        if any(it.next_line() is not None for it in crowd[:-1]):
            raise Failure("a waiter was told something whose lock another has")
        shut_down(served, holder, served.seconds)


def next_holder(waiters, seconds):
    """Who of these is told next that it has the lock for which all wait. Nobody else is, for as long as it has it."""
    listen_to(waiters, lambda: any(it.next_line() is not None for it in waiters), seconds)
    told = [it for it in waiters if it.next_line() is not None]
    if len(told) != 1:
        raise Failure(f"of all that wait for one lock {len(told)} are told at once that they have it")
    is_told(told[0], b"true", seconds)
    others = [it for it in waiters if it is not told[0]]
    if others and listen_to(others, lambda: any(it.heard for it in others), WATCH):
        raise Failure("two have one lock")
    return told[0]


def one_lock_goes_through_a_crowd(program, nodes):
    """All of a crowd wait for one lock, and have it one by one, each when the one before is killed: first all who came first."""
    with served_to(program, nodes) as served:
        crowd = attached(served, CROWD, nodes)
        halves = crowd[: CROWD // 2], crowd[CROWD // 2 :]
        for half in halves:
            for it in half:
                hears(it, b"spawn_link", served.seconds)
                it.say(b"set_lock self r w%d all infinity\n" % crowd.index(it))
            # Each of this half is in the line before one of the other comes. Nothing tells of a line, so which of a half is in it first isn't
            # asked.
            time.sleep(HEAD_START)
        waiters = crowd
        for at in range(CROWD):
            holder = next_holder(waiters, served.seconds)
            if holder not in halves[at // len(halves[0])]:
                raise Failure("who came seconds later has the lock first")
            waiters = [it for it in waiters if it is not holder]
            if waiters:
                holder.go()
        shut_down(served, holder, served.seconds)


def shutdown_ends_a_crowd(program, nodes):
    """Of a crowd some are silent, some wait for a lock, in its line or as its next holder, and some for a name: all end, and who waited is
    told why."""
    with served_to(program, nodes) as served:
        holder, *crowd = attached(served, CROWD + 1, nodes)
        expect_same("an answer", b"a.1", hears(holder, b"spawn", served.seconds))
        expect_same("an answer", b"true", hears(holder, b"set_lock a.1 r holder all 0", served.seconds))
        lines = [None, b"set_lock self r w%d all infinity\n", b"set_lock self r w%d all 1000000\n", b"wait n%d\n"]
        for at, it in enumerate(crowd):
            hears(it, b"spawn_link", served.seconds)
            if line := lines[at % len(lines)]:
                it.say(line % at)
        expect_same("an answer", b"ok", hears(holder, b"shutdown", served.seconds))
        listen_to(crowd, lambda: all(it.has_ended for it in crowd), served.seconds)
        for at, it in enumerate(crowd):
            expect_same("what one of the crowd is told", b"error closed\n" if lines[at % len(lines)] else b"", it.heard)
            if not it.has_ended:
                raise Failure("a console hasn't ended")
        served.expect_closed()


def all_places_are_taken(program):
    """As many consoles as a server may serve are attached, one more is turned away, and each of them is answered."""
    soft, hard = resource.getrlimit(resource.RLIMIT_NOFILE)
    if hard < DESCRIPTORS:
        raise Failure(f"{DESCRIPTORS} descriptors are needed, and there are {hard}")
    resource.setrlimit(resource.RLIMIT_NOFILE, (max(soft, DESCRIPTORS), hard))
    nodes = "a,b,c,d,e,f,g,h"
    with Served(program, ["--stay", "--nodes", nodes, "--consoles", str(MOST)]) as served:
        crowd = attached(served, MOST, nodes)
        late = Console(served)
        listen_to([late], lambda: late.has_ended, served.seconds)
        expect_same("the answer to one too many", b"error too_many_consoles\n", late.heard)
        for it in crowd:
            it.say(b"whereis x\n")
        for it in crowd:
            is_told(it, b"undefined", served.seconds)
        shut_down(served, crowd[0], served.seconds)


class Few(Limited):
    """One that may have a hundred descriptors open."""

    limits = "-n 100"


def few_descriptors_for_a_crowd(program):
    """Where there are too few descriptors for all consoles the server says for how many they serve, and these are served at once."""
    with Few(program, ["--stay", "--nodes", "a", "--consoles", str(MOST)]) as served:
        wait_for(served.process.stderr, time.monotonic() + served.seconds, "line on standard error")
        line = served.process.stderr.readline()
        found = re.fullmatch(rb"descriptors for (\d+) of 1024 consoles\n", line)
        if not found or not 64 < int(found[1]) < 100:
            raise Failure(f"expected for how many consoles the descriptors serve, got {shown(line)}")
        crowd = attached(served, int(found[1]))
        for it in crowd:
            expect_same("an answer", b"undefined", hears(it, b"whereis x", served.seconds))
        shut_down(served, crowd[0], served.seconds)


def tests(program, root):
    for name, nodes in [("of_one_node", "a"), ("of_three_nodes", "a,b,c")]:
        for test in [silent_consoles_hold_nobody_up, each_finds_what_it_was_told, one_lock_goes_through_a_crowd, shutdown_ends_a_crowd]:
            yield Test(f"crowds/{test.__name__}_{name}", partial(test, program, nodes), alone=True)
    for test in [waiters_of_many_locks_hold_nobody_up, all_places_are_taken, few_descriptors_for_a_crowd]:
        yield Test(f"crowds/{test.__name__}", partial(test, program), alone=True)
