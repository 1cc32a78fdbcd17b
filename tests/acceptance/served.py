"""The program as it serves a cluster, and consoles at it."""

import os
import selectors
import socket
import subprocess
import tempfile
import time
from contextlib import suppress

from .outcomes import Failure, expect_same, shown

# How often another port is tried where somebody else took the one that was free.
MOST_PORTS = 20
PIPES = {"stdin": subprocess.DEVNULL, "stdout": subprocess.PIPE, "stderr": subprocess.PIPE}


def free_port():
    with socket.socket() as found:
        found.bind(("127.0.0.1", 0))
        return found.getsockname()[1]


def wait_for(file, deadline, what):
    """Waits until there is something to read."""
    with selectors.DefaultSelector() as ready:
        ready.register(file, selectors.EVENT_READ)
        if not ready.select(max(0, deadline - time.monotonic())):
            raise Failure(f"no {what} came in time")


def write_private(path, text):
    """Writes a file that nobody but its owner may read."""
    with os.fdopen(os.open(path, os.O_WRONLY | os.O_CREAT, 0o600), "wb") as file:
        file.write(text)


class Served:
    """A cluster that is served until the program ends, which it is made to where a test fails.

    One that stays is served at a socket of the file system; where a cookie stands among the options, as `--cookie TEXT`, over TCP."""

    def __init__(self, program, options):
        self.seconds = program.seconds
        self.stays = "--stay" in options
        self.folder = tempfile.TemporaryDirectory(prefix="served-")
        self.socket = f"{self.folder.name}/socket"
        if "--cookie" in options:
            at = options.index("--cookie")
            write_private(f"{self.folder.name}/cookie", options[at + 1].encode() + b"\n")
            options = [*options[:at], "--cookie-file", f"{self.folder.name}/cookie", *options[at + 2 :]]
        self.is_over_tcp = not self.stays or "--cookie-file" in options
        for _ in range(MOST_PORTS):
            self.address = ("127.0.0.1", free_port()) if self.is_over_tcp else self.socket
            listen = "%s:%d" % self.address if self.is_over_tcp else f"unix:{self.socket}"
            self.start([program.path, "serve", "--listen", listen, *options])
            line = self.expect_line()
            if line == f"listening {listen}\n".encode():
                return
            self.process.kill()
            output, errors = self.end()
            if not self.is_over_tcp or not errors.startswith(f"error: --listen {listen}: ".encode()):
                break
        raise Failure(f"expected `listening ..`, got {shown(line + output + errors)}")

    def start(self, words):
        self.process = subprocess.Popen(words, bufsize=0, **PIPES)

    def connect(self):
        """A connection to the program."""
        if self.is_over_tcp:
            return socket.create_connection(self.address, timeout=self.seconds)
        stream = socket.socket(socket.AF_UNIX)
        stream.settimeout(self.seconds)
        stream.connect(self.address)
        return stream

    def expect_line(self):
        """The first line of standard output. A program that doesn't print one in time is killed."""
        try:
            return self.read_line()
        except Failure:
            self.__exit__()
            raise

    def __enter__(self):
        return self

    def __exit__(self, *_):
        self.process.kill()
        self.end()
        self.folder.cleanup()

    def read_line(self):
        """The next line of standard output."""
        line, deadline = b"", time.monotonic() + self.seconds
        while not line.endswith(b"\n"):
            wait_for(self.process.stdout, deadline, "line of the program")
            part = os.read(self.process.stdout.fileno(), 1)
            if not part:
                break
            line += part
        return line

    def end(self):
        """What was still written to standard output and to standard error before the program ended."""
        try:
            return self.process.communicate(timeout=self.seconds)
        except subprocess.TimeoutExpired:
            raise Failure("the program had not ended in time") from None

    def expect_closed(self, least=0, most=None, told=None):
        """Waits for the end: the cluster is closed, with so many events. Only one that stays tells of its consoles on standard error: this,
        where it is looked at."""
        output, errors = self.end()
        if not self.stays or told is not None:
            expect_same("standard error", told or b"", errors)
        word, _, number = output.partition(b" ")
        is_closed = word == b"closed" and number.endswith(b"\n") and number[:-1].isdigit()
        if not is_closed or not least <= int(number) <= (int(number) if most is None else most):
            raise Failure(f"expected `closed` with its number of events, got {shown(output)}")
        if self.process.returncode != 0:
            raise Failure(f"expected status 0, got {self.process.returncode}")
        if os.path.exists(self.socket):
            raise Failure("the socket is left in the file system")


class Console:
    """A connection, and what it has heard."""

    def __init__(self, served):
        self.stream = served.connect()
        self.heard = b""
        self.has_ended = False

    def say(self, text):
        """Says a text, as far as it is listened to."""
        with suppress(OSError):
            self.stream.sendall(text)

    def end_input(self):
        with suppress(OSError):
            self.stream.shutdown(socket.SHUT_WR)

    def go(self):
        """Is gone at once, and hears nothing any more."""
        self.stream.close()

    def read(self):
        """Takes in what has come. A connection that is reset has ended too."""
        try:
            part = self.stream.recv(1 << 20)
        except ConnectionResetError:
            part = b""
        self.heard += part
        self.has_ended = not part

    def next_line(self):
        """The next line that was heard and not taken yet, without its end, or none where it isn't whole."""
        line, end, _ = self.heard.partition(b"\n")
        return line if end else None

    def take_line(self):
        self.heard = self.heard.partition(b"\n")[2]


def listen_to(consoles, is_enough, seconds):
    """Has consoles hear until it is enough, or all have ended. Tells whether it was enough in time."""
    deadline = time.monotonic() + seconds
    with selectors.DefaultSelector() as ready:
        for it in consoles:
            ready.register(it.stream, selectors.EVENT_READ, it)
        while not is_enough():
            for it in consoles:
                if it.has_ended and it.stream in ready.get_map():
                    ready.unregister(it.stream)
            events = ready.select(max(0, deadline - time.monotonic())) if ready.get_map() else []
            if not events:
                return False
            for key, _ in events:
                key.data.read()
    return True
