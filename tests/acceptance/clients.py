"""The client in Python, and its examples, at a served cluster."""

import importlib.util
import os
import subprocess
import sys
import tempfile
import time
from functools import partial

from .outcomes import Failure, Test
from .served import Served, wait_for

COOKIE = "0123456789abcdef"


def load(name, path):
    """A file as a module."""
    found = importlib.util.spec_from_file_location(name, path)
    module = importlib.util.module_from_spec(found)
    sys.modules.setdefault(name, module)
    found.loader.exec_module(module)
    return module


def client_of(root):
    """The client as a module."""
    return load("yaltzumin", f"{root}/clients/python/yaltzumin.py")


def expect(what, wanted, found):
    if wanted != found:
        raise Failure(f"{what}: expected {wanted!r}, got {found!r}")


def expect_refused(client, word, call, *given):
    try:
        answer = call(*given)
    except client.Refused as why:
        expect("the word", word, why.word)
    else:
        raise Failure(f"expected `{word}`, got {answer!r}")


def has_it_all(program, root, *options):
    """Each call of a connection, once."""
    client = client_of(root)
    cookie = options[1] if options else None
    with Served(program, ["--stay", "--nodes", "a,b", "--lone", "c", "--consoles", "3", *options]) as served:
        expect_refused(client, "not_allowed" if cookie else "no_such_node", client.connect, served.address, "z")
        with client.connect(served.address, "a", cookie) as one, client.connect(served.address, "c", cookie) as other:
            first, second, lone = one.spawn(), one.spawn_for_good(), other.spawn()
            expect("the processes", ("a.1", "a.2", "c.1"), (first, second, lone))
            expect("a new name", True, one.register("x", first, "notify"))
            expect("a name that somebody has", False, one.register("x", second))
            expect("its owner", first, one.whereis("x"))
            one.re_register("y", second)
            one.unregister("y")
            expect("no owner", None, one.whereis("y"))
            expect("a name of a lone node", True, other.register("x", lone))
            one.describe(first, "10.0.0.5:4370  v2 ")
            expect("what was said of it", "10.0.0.5:4370  v2 ", other.description(first))
            expect("what nobody said", None, other.description(lone))
            expect("the name with that", client.Found(first, "10.0.0.5:4370  v2 "), one.find("x"))
            expect("a name without", client.Found(lone, None), other.find("x"))
            expect("a name that nobody has", None, one.find("y"))
            expect_refused(client, "no_such_process", other.describe, first, "mine")
            expect("a name that is there", first, one.wait_for("x"))
            one.wait_gone("x", second)
            expect("the join", "joined", other.join("a"))
            expect("the notices", [client.Notice("x", None)], other.notices(lone))
            expect("the names", ["x"], other.names())
            expect("the names that begin so", (["x"], []), (other.names("x"), other.names("xy")))
            expect_refused(client, "bad_byte", other.names, "x!")
            expect_refused(client, "bad_byte", other.wait_for, "x!")
            expect("a word of the help", True, "spawn_link" in other.help())
            expect_refused(client, "no_grant", one.fence)
            with one.lock("r", first, "me") as number:
                expect("the number of a lock", number, one.fence())
                expect_refused(client, "no_grant", other.fence)
                expect("the lock of another", False, other.set_lock("r", lone, "it", retries=0))
            expect("the lock when it is free", True, other.set_lock("r", lone, "it", retries=0))
            if not other.fence() > number:
                raise Failure("the later holder of a lock has no greater number")
            other.del_lock("r", lone, "it")
            expect_refused(client, "not_live", one.set_lock, "r", "b.1", "me")
            one.exit(second)
            status = one.status()
            told = (status.node, status.is_joined, status.members, status.names, status.serials, status.consoles)
            expect("the status", ("a", True, ("a", "b", "c"), 1, 2, 2), told)
            other.shutdown()
            if not one.wait_for_end(program.seconds):
                raise Failure("the other connection hasn't ended in time")
            try:
                one.names()
            except client.Disconnected:
                pass
            else:
                raise Failure("a connection that has ended is answered")
        served.expect_closed()


class Example:
    """An example that runs."""

    def __init__(self, root, served, name, *words):
        words = [sys.executable, f"{root}/clients/python/examples/{name}.py", served.socket, *words]
        self.name, self.seconds = name, served.seconds
        environment = {**os.environ, "PYTHONDONTWRITEBYTECODE": "1"}
        self.process = subprocess.Popen(words, stdin=subprocess.DEVNULL, stdout=subprocess.PIPE, env=environment)

    def expect(self, text):
        wait_for(self.process.stdout, time.monotonic() + self.seconds, f"line of {self.name}")
        expect(f"the line of {self.name}", f"{text}\n".encode(), self.process.stdout.readline())

    def end(self):
        self.process.kill()
        self.process.wait()
        self.process.stdout.close()


class Candidate(Example):
    """A program that stands for election."""

    def __init__(self, root, served, name):
        super().__init__(root, served, "election", name)
        self.candidate = name

    def expect(self, text):
        super().expect(f"{self.candidate} {text}")


def elects(program, root):
    """Of two candidates the second leads when the first is killed; and after the server was killed and came back one leads again."""
    client = client_of(root)
    with Served(program, ["--stay", "--nodes", "a", "--consoles", "4"]) as served:
        one = Candidate(root, served, "one")
        two = None
        try:
            one.expect("leads")
            two = Candidate(root, served, "two")
            with client.connect(served.address) as watcher:
                until = time.monotonic() + program.seconds
                while watcher.status().consoles < 3 and time.monotonic() < until:
                    time.sleep(0.01)
                expect("the leader", "a.1", watcher.whereis("leader"))
                one.end()
                two.expect("leads")
            served.process.kill()
            served.end()
            two.expect("leads no more")
            served.start([program.path, "serve", "--stay", "--listen", f"unix:{served.socket}", "--nodes", "a"])
            served.read_line()
            two.expect("leads")
            with client.connect(served.address) as watcher:
                watcher.shutdown()
            two.expect("leads no more")
            served.expect_closed()
        finally:
            one.end()
            if two:
                two.end()


def numbers_rise(program, root):
    """Holders in turn at three nodes have rising numbers, each of its node's place; those after a restart are greater than all before,
    and all of them near the clock."""
    client = client_of(root)
    numbers = []
    with Served(program, ["--stay", "--nodes", "a,b,c", "--consoles", "3"]) as served:
        for _ in range(2):
            begin = time.time_ns() // 1000
            with client.connect(served.address, "a") as a, client.connect(served.address, "b") as b, client.connect(served.address, "c") as c:
                processes = [server.spawn() for server in (a, b, c)]
                for turn in range(9):
                    place = turn % 3
                    with (a, b, c)[place].lock("r", processes[place], f"holder-{place}") as number:
                        numbers.append(number)
                    expect("the place of the node", place, number % 8)
                if not abs(numbers[-1] // 8 - begin) < 60_000_000:
                    raise Failure(f"the number {numbers[-1]} isn't of this minute, {8 * begin}")
                expect("the number of a lock that was given back", numbers[-3], a.fence())
            served.process.kill()
            served.end()
            served.start([program.path, "serve", "--stay", "--listen", f"unix:{served.socket}", "--nodes", "a,b,c"])
            served.read_line()
        with client.connect(served.address) as last:
            expect_refused(client, "no_grant", last.fence)
            last.shutdown()
        served.expect_closed()
    for one, next_one in zip(numbers, numbers[1:]):
        if not one < next_one:
            raise Failure(f"the number {next_one} comes after {one}")


def guards(program, root):
    """A page takes no write of a writer after whom another has written."""
    folder = tempfile.TemporaryDirectory()
    with folder, Served(program, ["--stay", "--nodes", "a,b", "--consoles", "3"]) as served:
        script = f"{root}/clients/python/examples/guarded.py"
        environment = {**os.environ, "PYTHONDONTWRITEBYTECODE": "1"}
        words = [sys.executable, script, served.socket, f"{folder.name}/page"]
        done = subprocess.run([*words, "one", "1"], stdin=subprocess.DEVNULL, stdout=subprocess.PIPE, env=environment, timeout=served.seconds)
        expect("what one writer says", b"one has written\n", done.stdout)
        page = load("guarded", script).Page(f"{folder.name}/page")
        client = client_of(root)
        with client.connect(served.address, "b") as late, client.connect(served.address, "a") as next_one:
            with late.lock("page", late.spawn(), "late") as number:
                expect("a write", True, page.write("late", number))
            with next_one.lock("page", next_one.spawn(), "next") as greater:
                expect("the next write", True, page.write("next", greater))
            expect("a write that comes late", False, page.write("late", number))
            expect("another of the same number", True, page.write("next", greater))
            next_one.shutdown()
        served.expect_closed()


def serves_and_stands_by(program, root):
    """Callers are answered by whoever serves; when that is killed the one that stood by serves, and a caller who came between waits for it."""
    with Served(program, ["--stay", "--nodes", "a,b", "--consoles", "6"]) as served:
        running = []

        def start(*words):
            running.append(Example(root, served, "service", *words))
            return running[-1]

        try:
            early = start("call", "who is there")
            first = start("serve")
            first.expect("serves")
            early.expect("WHO IS THERE")
            second = start("serve")
            second.expect("stands by")
            start("call", "hello").expect("HELLO")
            first.end()
            second.expect("serves")
            start("call", "again").expect("AGAIN")
            with client_of(root).connect(served.address) as watcher:
                watcher.shutdown()
            if second.process.wait(served.seconds):
                raise Failure("the service ends with a fault")
            served.expect_closed()
        finally:
            for one in running:
                one.end()


def tests(program, root):
    yield Test("clients/has_it_all_at_a_socket", partial(has_it_all, program, root))
    yield Test("clients/has_it_all_over_tcp", partial(has_it_all, program, root, "--cookie", COOKIE))
    yield Test("clients/elects", partial(elects, program, root))
    yield Test("clients/numbers_rise", partial(numbers_rise, program, root))
    yield Test("clients/serves_and_stands_by", partial(serves_and_stands_by, program, root))
    yield Test("clients/guards", partial(guards, program, root))
