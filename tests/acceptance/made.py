"""Scripts that are too long to keep."""

from dataclasses import dataclass

# How many lines a script may have, and how many bytes a line.
MOST_LINES = 1_000_000
MOST_BYTES = 1024


@dataclass(frozen=True)
class Script:
    name: str
    script: bytes
    output: bytes
    status: int


def answers(first, last):
    return b"".join(b"a#%d ok\n" % number for number in range(first, last + 1))


def most_deliveries():
    """Each call takes five letters, so the first settle stops behind 20,000 of them."""
    script = b"cluster a\n" + b"unregister a x\n" * 25_000 + b"settle\nsettle\n"
    output = answers(1, 20_000) + b"error settle_limit\n" + answers(20_001, 25_000) + b"settled\n"
    return Script("settle_stops_at_its_limit", script, output, 1)


def behind_lines(count, script):
    """A script that begins with a cluster line and empty lines: so many lines in all."""
    return b"cluster a\n" + b"\n" * (count - 1) + script


def most_lines():
    script = behind_lines(MOST_LINES - 1, b"spawn a\n")
    return Script("a_million_lines", script, b"a.1\n", 0)


def too_many_lines():
    script = b"cluster a\nspawn a\n" + b"\n" * (MOST_LINES - 2) + b"spawn a\n"
    return Script("a_line_behind_a_million", script, b"a.1\n", 1)


def overlong(extra):
    """A line of 1,000 times as many bytes as a line may have, less one for each that is taken off."""
    return b"x" * (1000 * MOST_BYTES - extra) + b"\n"


def overlong_line_counts_often():
    """It counts as 1,000 lines, so one spawn is the last line that is played."""
    script = behind_lines(MOST_LINES - 1001, overlong(0) + b"spawn a\nspawn a\n")
    return Script("overlong_line_counts_as_a_thousand", script, b"error line_too_long\na.1\n", 1)


def overlong_line_counts_once_less():
    script = behind_lines(MOST_LINES - 1001, overlong(1) + b"spawn a\nspawn a\n")
    return Script("overlong_line_counts_as_one_less", script, b"error line_too_long\na.1\na.2\n", 1)


def overlong_last_line():
    script = behind_lines(MOST_LINES - 1, b"x" * (2 * MOST_BYTES - 1) + b"\n")
    return Script("overlong_line_is_the_last", script, b"error line_too_long\n", 1)


def overlong_line_passes_the_limit():
    """The count passes the limit inside the line: nothing is told of it."""
    script = behind_lines(MOST_LINES - 1, b"x" * (2 * MOST_BYTES) + b"\n")
    return Script("overlong_line_passes_the_limit", script, b"", 1)


def scripts():
    return [
        most_deliveries(),
        most_lines(),
        too_many_lines(),
        overlong_line_counts_often(),
        overlong_line_counts_once_less(),
        overlong_last_line(),
        overlong_line_passes_the_limit(),
    ]
