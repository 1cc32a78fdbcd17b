"""What tests are, and how they tell what they found."""

import re
from dataclasses import dataclass
from typing import Callable

# How many bytes of a line are told.
MOST_TOLD = 100


class Failure(Exception):
    """Why a test failed, in one line."""


@dataclass(frozen=True)
class Test:
    """A test with its name, and what it runs: that raises a Failure where the test fails. One that runs alone has the machine for itself, so
    that it holds no other up that waits for something."""

    name: str
    run: Callable[[], None]
    alone: bool = False


def lines_of(text):
    """The lines of a text, with their ends."""
    return re.findall(rb"[^\n]*\n|[^\n]+", text)


def shown(text):
    """A text as it is told: bytes that can't be printed are written out, and a long text is cut."""
    told = repr(text[:MOST_TOLD])[2:-1]
    return f"`{told}`" + (f" and {len(text) - MOST_TOLD} bytes more" if len(text) > MOST_TOLD else "")


def expect_same(what, expected, found):
    """Fails at the first line in which a text differs from what is expected."""
    if expected == found:
        return
    wanted, lines = lines_of(expected), lines_of(found)
    for at in range(max(len(wanted), len(lines))):
        want = shown(wanted[at]) if at < len(wanted) else "its end"
        got = shown(lines[at]) if at < len(lines) else "its end"
        if want != got or wanted[at] != lines[at]:
            raise Failure(f"line {at + 1} of {what}: expected {want}, got {got}")


def expect_text(what, expected, found):
    """Fails unless a text is the one that is expected, or begins so where that ends with two dots."""
    if not expected.endswith(b".."):
        expect_same(what, expected, found)
    elif not found.startswith(expected[:-2]):
        raise Failure(f"{what}: expected {shown(expected)}, got {shown(found)}")


def expect_status(expected, found):
    """Fails unless a program ended with this status."""
    if found != expected:
        got = f"signal {-found}" if found < 0 else f"status {found}"
        raise Failure(f"expected status {expected}, got {got}")
