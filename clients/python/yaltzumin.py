"""A client of a Yaltzumin server that stays: names, locks and elections for programs in Python.

    import yaltzumin

    with yaltzumin.connect("/run/yaltzumin/socket") as server:
        me = server.spawn()
        server.register("printer", me)
        with server.lock("paper", me, "printer-1"):
            ...

A `Connection` is one console of the server, at one of its nodes. The processes that it spawns are identities: nothing runs in them, they
own names and hold locks, and exit when the connection ends, in whatever way. What is refused raises `Refused`, with the word of the
server's manual (docs/CONSOLE.md); a connection that has ended raises `Disconnected`. A connection is for one thread at a time: it asks one
thing, and waits for the answer. `lead` takes part in an election for as long as the program runs, and connects again where the server went away.

It needs Python 3.9 and nothing beside the standard library.
"""

from __future__ import annotations

import random
import socket
import time
from collections.abc import Callable, Iterator
from contextlib import contextmanager
from dataclasses import dataclass
from types import TracebackType
from typing import Optional, Union

__all__ = ["Connection", "Disconnected", "Found", "Notice", "Place", "Refused", "Status", "connect", "lead", "pauses"]

#: Where a server listens: the path of its socket, or a host and a port.
Place = Union[str, "tuple[str, int]"]

#: How long to wait for a connection, and for the answer to the first line, in seconds.
PATIENCE = 10.0


class Refused(Exception):
    """The server refuses a line. `word` says why, as `not_live` or `calls_spent`."""

    def __init__(self, word: str, line: str) -> None:
        super().__init__(f"{line.split(' ', 1)[0]}: {word}")
        self.word = word


class Disconnected(Exception):
    """The connection has ended: the server is gone, or has ended it. Its processes exit, so its names and locks are gone."""


@dataclass(frozen=True)
class Notice:
    """The loss of a name when a lone node joined: to `other` and to nobody where both lost it, else to the one that has it now."""

    name: str
    other: Optional[str]


@dataclass(frozen=True)
class Found:
    """The process that has a name, and what was said of it, if anything was."""

    process: str
    description: Optional[str]


@dataclass(frozen=True)
class Status:
    """How a node and the server stand. What each number is stands in docs/CONSOLE.md."""

    node: str
    is_joined: bool
    members: tuple[str, ...]
    names: int
    locks: int
    calls: int
    serials: int
    spans: int
    consoles: int
    steps: int
    memory: int


def connect(place: Place, node: str = "a", cookie: Optional[str] = None) -> Connection:
    """Connects to the server, as a console of this node. The cookie is asked for over TCP, and wherever the server has one.

    Raises `Refused` where the server lets nobody in so (`not_allowed`, `no_such_node`, `too_many_consoles`), `Disconnected` where it ends
    the connection, and `OSError` where there is none."""
    if isinstance(place, str):
        stream = socket.socket(socket.AF_UNIX)
        stream.settimeout(PATIENCE)
        try:
            stream.connect(place)
        except OSError:
            stream.close()
            raise
    else:
        stream = socket.create_connection(place, timeout=PATIENCE)
        stream.setsockopt(socket.IPPROTO_TCP, socket.TCP_NODELAY, 1)
    connection = Connection(stream, node)
    try:
        connection.ask(" ".join(["attach", node, *([cookie] if cookie else [])]))
    except Exception:
        connection.close()
        raise
    # a lock may be waited for as long as another holds it, and a name for as long as nobody has it
    stream.settimeout(None)
    return connection


class Connection:
    """A console at a node of the server. `connect` makes one; as a context manager it ends with its block."""

    def __init__(self, stream: socket.socket, node: str) -> None:
        self.node = node
        self._stream = stream
        self._answers = stream.makefile("rb")

    def __enter__(self) -> Connection:
        return self

    def __exit__(self, kind: Optional[type[BaseException]], error: Optional[BaseException], trace: Optional[TracebackType]) -> None:
        self.close()

    def close(self) -> None:
        """Ends the connection. The server has its processes exit."""
        self._answers.close()
        self._stream.close()

    def ask(self, line: str) -> str:
        """Says a line and gives its answer. Raises `Refused` for one that is refused, and `Disconnected` at the end of the connection."""
        if "\n" in line or not line.isascii():
            raise ValueError(f"no line of the server: {line!r}")
        try:
            self._stream.sendall(line.encode() + b"\n")
            answer = self._answers.readline()
        except (OSError, ValueError) as why:
            raise Disconnected(str(why)) from why
        if not answer.endswith(b"\n"):
            raise Disconnected("the server has ended the connection")
        text = answer[:-1].decode("ascii")
        if text.startswith("error "):
            raise Refused(text[len("error ") :], line)
        return text

    # Processes

    def spawn(self) -> str:
        """A new process, which exits when this connection ends."""
        return self.ask("spawn_link")

    def spawn_for_good(self) -> str:
        """A new process that outlives this connection. Somebody has to have it exit."""
        return self.ask("spawn")

    def exit(self, process: str) -> None:
        """Has a process of this node exit: its names and locks are free soon, and its description is gone."""
        self.ask(f"exit {process}")

    def describe(self, process: str, text: str) -> None:
        """Says this of a process of this node, as its address: 1 to 256 printable bytes of ASCII, not spaces alone. What was said of it before
        is replaced."""
        if not text.strip(" "):
            raise ValueError("a description is no text of spaces alone")
        self.ask(f"describe {process} {text}")

    def description(self, process: str) -> Optional[str]:
        """What was said of a process, of whichever node, if anything was."""
        word, _, text = self.ask(f"describe {process}").partition(" ")
        return text if word == "description" else None

    def notices(self, process: str) -> list[Notice]:
        """What a process of this node was sent when lone nodes joined, in the order in which it came."""
        words = self.ask(f"notices {process}").split(" ")[1:]
        return [Notice(name, other or None) for name, _, other in (it.partition("=") for it in words)]

    # Names

    def register(self, name: str, process: str, rule: str = "exit") -> bool:
        """Gives a process a name that nobody has. Whether it has it now; false where somebody else has the name."""
        return self._yes_or_no(f"register {name} {process} {rule}")

    def re_register(self, name: str, process: str, rule: str = "exit") -> None:
        """Gives a process a name, whoever had it."""
        self._yes_or_no(f"re_register {name} {process} {rule}")

    def unregister(self, name: str) -> None:
        """Takes a name away, if somebody has it."""
        self.ask(f"unregister {name}")

    def whereis(self, name: str) -> Optional[str]:
        """The process that has a name, by the table of this node, if one has it."""
        found = self.ask(f"whereis {name}")
        return None if found == "undefined" else found

    def find(self, name: str) -> Optional[Found]:
        """The process that has a name, by the table of this node, with its description; if one has it."""
        process, _, text = self.ask(f"find {name}").partition(" ")
        return None if process == "undefined" else Found(process, text or None)

    def wait_for(self, name: str) -> str:
        """Waits until some process has a name, by the table of this node: which one. Raises `Refused` where the node leaves or the server ends
        meanwhile (`node_left`, `closed`)."""
        return self.ask(f"wait {name}")

    def wait_gone(self, name: str, process: str) -> None:
        """Waits until a name isn't this process's any more, or for nothing where it isn't. It is refused as `wait_for` is."""
        self.ask(f"wait {name} {process}")

    def names(self, prefix: Optional[str] = None) -> list[str]:
        """All names in the table of this node, rising; or those that begin with a prefix, of 1 to 64 bytes."""
        return self.ask("names" if prefix is None else f"names {prefix}").split(" ")[1:]

    def _yes_or_no(self, line: str) -> bool:
        answer = self.ask(line)
        if answer == "unknown_node":
            raise Refused(answer, line)
        return answer == "yes"

    # Locks

    def set_lock(self, resource: str, process: str, requester: str, nodes: str = "all", retries: Optional[int] = None) -> bool:
        """Takes a lock for a process under a requester; whether it is had. Without a number of retries it waits until it is. A lock that is
        held is granted again under the same requester, so no two who exclude each other may have the same."""
        asked = "infinity" if retries is None else str(retries)
        return self.ask(f"set_lock {process} {resource} {requester} {nodes} {asked}") == "true"

    def del_lock(self, resource: str, process: str, requester: str, nodes: str = "all") -> None:
        """Gives one grant of a lock back."""
        self.ask(f"del_lock {process} {resource} {requester} {nodes}")

    def fence(self) -> int:
        """A number for the last lock that this connection was granted: who holds the resource later, under another requester and with a
        node in common, has a greater one. Raises `Refused` (`no_grant`) where it was granted none."""
        return int(self.ask("fence").split(" ")[1])

    @contextmanager
    def lock(self, resource: str, process: str, requester: str, nodes: str = "all") -> Iterator[int]:
        """Holds a lock for the length of a block, after waiting for it, and gives its number (`fence`). The lock is gone where the
        connection ends inside the block: what needs it has to notice that by what it asks the server, or to show the number where it
        writes."""
        self.set_lock(resource, process, requester, nodes)
        try:
            yield self.fence()
        finally:
            try:
                self.del_lock(resource, process, requester, nodes)
            except Disconnected:
                # it went with the connection
                pass

    # The node and the server

    def join(self, contact: str) -> str:
        """Has a lone node join the cluster by a member of it: `joined`, `not_member` or `contact_left`."""
        return self.ask(f"join {contact}")

    def status(self) -> Status:
        """How the node and the server stand."""
        words = self.ask("status").split(" ")
        numbers = dict(zip(words[5::2], map(int, words[6::2])))
        return Status(node=words[1], is_joined=words[2] == "joined", members=tuple(words[4].split(",")), **numbers)

    def help(self) -> list[str]:
        """The words of the lines that the server understands."""
        return self.ask("help").split(" ")[1:]

    def shutdown(self) -> None:
        """Ends the server."""
        self.ask("shutdown")

    def wait_for_end(self, seconds: Optional[float] = None) -> bool:
        """Waits until the connection ends, or for so many seconds; whether it has ended. Nothing may be asked meanwhile."""
        self._stream.settimeout(seconds)
        try:
            return self._stream.recv(1, socket.MSG_PEEK) == b""
        except socket.timeout:
            return False
        except OSError:
            return True
        finally:
            self._stream.settimeout(None)


def pauses(first: float = 0.05, most: float = 5.0) -> Iterator[float]:
    """Seconds to wait before each try to connect again: twice as long each time, up to a most, less a part by chance, so that those who
    lost one server at once don't come back at once."""
    longest = first
    while True:
        yield random.uniform(longest / 2, longest)
        longest = min(2 * longest, most)


def lead(
    resource: str,
    requester: str,
    term: Callable[[Connection, str], None],
    place: Place,
    node: str = "a",
    cookie: Optional[str] = None,
) -> None:
    """Takes part in an election: waits for the lock `resource` over all nodes and calls `term` with the connection and its process while it
    leads; returns when `term` does. Where the connection ends, before or in a term, it connects again after a pause, and stands for
    election anew. `requester` is the candidate's own name: no two candidates may have the same.

    `term` must end soon once its connection has ended: what it asks the server raises `Disconnected` then, and `wait_for_end` tells it. The
    server frees the lock at that moment and another leads."""
    waits = pauses()
    while True:
        try:
            with connect(place, node, cookie) as server:
                waits = pauses()
                process = server.spawn()
                if server.set_lock(resource, process, requester):
                    return term(server, process)
        except (Disconnected, ConnectionError, FileNotFoundError, socket.timeout):
            pass
        except Refused as why:
            if why.word not in ("closed", "not_live", "too_many_consoles"):
                raise
        time.sleep(next(waits))
