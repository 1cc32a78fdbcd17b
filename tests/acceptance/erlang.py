"""Real Erlang nodes over programs of nodes: the application in clients/erlang, on clusters of this machine's.

Each scenario of clients/erlang/test/yaltzumin_scenarios.erl starts its own nodes, with an epmd of its own, and checks what they answer by
itself. They are run by a controller that is no node, so that nodes end with it. Where Erlang isn't there, or the program runs no nodes,
they are left out.
"""

import contextlib
import functools
import os
import shutil
import signal
import socket
import subprocess
import tempfile
import threading
import time

from .outcomes import Failure, Test
from .programs import run

# What the scenarios are called, the longest first.
SCENARIOS = (
    "lives starters chances kills restarts writes forgets locks returns cuts torn names clashes terms leaves singleton programs refusals"
).split()
# How many seconds a scenario waits for each thing that has to come about, and how many it may take in all. They end one that is stuck; what
# is waited for comes within seconds, unless the machine has much else to do.
WAITED = 600
PLAYED = 3600
# How many scenarios are played at once: each has up to five nodes, with a program each.
AT_ONCE = threading.Semaphore(2)
# What has to be on the search path.
TOOLS = ["erl", "erlc", "epmd", "make"]
# How many tenths of a second an epmd is waited for.
MOST_WAITED = 600
# How many seconds the build may take.
BUILDING = 600
LOWER = ["nice", "-n", "10"]
# Where nodes find the addresses of hosts: they ask no resolver of the system's.
HOSTS = '{host, {127,0,0,1}, ["localhost"]}.\n{lookup, [file]}.\n'


def runs_node(program, node):
    """Whether the program runs this node of a world of one."""
    return program.run(["node", node, "a"], input=b"0 steps\n").stdout == b"0 0\n"


def left_out(program):
    """Why the scenarios can't be run, or nothing."""
    missing = [it for it in TOOLS if not shutil.which(it)]
    if missing:
        return f"{missing[0]} isn't there (apt-get install --no-install-recommends make erlang-base erlang-dev erlang-crypto erlang-eunit)"
    if not all(runs_node(program, node) for node in ("a", "a/2")):
        return "the program runs no nodes, or no later ones of a name"
    return None


class Built:
    """The application with its examples and tests, built once into a folder that goes with this program."""

    def __init__(self, root):
        self.root = root
        self.lock = threading.Lock()
        self.folder = self.why = None

    def build(self):
        """Builds it, and gives why it isn't, or nothing."""
        self.folder = tempfile.TemporaryDirectory(prefix="yaltzumin_erlang_")
        ended = run(["make", "-s", "-C", f"{self.root}/clients/erlang", f"EBIN={self.folder.name}", "tests"], BUILDING)
        return f"it isn't built: {(ended.stdout + ended.stderr).decode()[-500:]!r}" if ended.returncode else None

    def path(self):
        """Where it is."""
        with self.lock:
            if not self.folder:
                self.why = f"it isn't built within {BUILDING} seconds"
                self.why = self.build()
            if self.why:
                raise Failure(self.why)
            return self.folder.name


def free_port():
    """A port of this machine at which nobody listens."""
    with socket.socket() as it:
        it.bind(("127.0.0.1", 0))
        return it.getsockname()[1]


@contextlib.contextmanager
def erlang_of_its_own(folder, **more):
    """An environment in which nodes find each other by an epmd of their own, and have a home of their own."""
    port = str(free_port())
    home = os.path.join(folder, f"home_{port}")
    os.mkdir(home)
    hosts = os.path.join(home, "hosts")
    with open(hosts, "w") as it:
        it.write(HOSTS)
    environment = {**os.environ, **more, "HOME": home, "ERL_INETRC": hosts, "ERL_EPMD_PORT": port, "ERL_EPMD_ADDRESS": "127.0.0.1"}
    quiet = {"stdin": subprocess.DEVNULL, "stdout": subprocess.DEVNULL, "stderr": subprocess.DEVNULL}
    epmd = subprocess.Popen(["epmd", "-address", "127.0.0.1", "-port", port], env=environment, cwd=home, **quiet)
    try:
        for _ in range(MOST_WAITED):
            with socket.socket() as it:
                if not it.connect_ex(("127.0.0.1", int(port))):
                    break
            time.sleep(0.1)
        yield environment, home
    finally:
        epmd.kill()
        epmd.wait()


def told(command, seconds, environment, home):
    """Runs a controller and all that it starts, for so long at most. Gives its status and what it told of a failure."""
    controller = subprocess.Popen(
        command, env=environment, cwd=home, stdin=subprocess.DEVNULL, stdout=subprocess.PIPE, stderr=subprocess.STDOUT, start_new_session=True
    )
    try:
        said = controller.communicate(timeout=seconds)[0]
    except subprocess.TimeoutExpired:
        os.killpg(controller.pid, signal.SIGKILL)
        controller.communicate()
        raise Failure(f"it had not ended after {seconds:g} seconds") from None
    return controller.returncode, said.decode(errors="replace").strip()


def play(program, built, scenario):
    words = ["-kernel", "logger_level", "emergency", "-run", "yaltzumin_scenarios", "main", scenario]
    more = {"YALTZUMIN_PROGRAM": program.path, "YALTZUMIN_SECONDS": str(WAITED)}
    control(built, words, PLAYED, **more)


def check(built):
    """The tests of the application's own modules, which play no program."""
    control(built, ["-eval", "case eunit:test(yaltzumin_tests) of ok -> halt(0); _ -> halt(1) end."], PLAYED)


def control(built, words, seconds, **environment):
    """Runs a controller with these words, which has to end well."""
    with AT_ONCE:
        folder = built.path()
        with erlang_of_its_own(folder, **environment) as (own, home):
            status, said = told([*LOWER, "erl", "-noshell", "-pa", folder, *words], seconds, own, home)
    if status:
        raise Failure(f"status {status}: {said[-500:]}")


def tests(program, root):
    why = left_out(program)
    if why:
        print(f"erlang: left out, since {why}")
        return
    built = Built(root)
    yield Test("erlang/modules", functools.partial(check, built))
    for scenario in SCENARIOS:
        yield Test(f"erlang/{scenario}", functools.partial(play, program, built, scenario))
