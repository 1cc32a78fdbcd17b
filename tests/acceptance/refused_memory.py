"""Refused memory: each request for memory that a script makes is refused in turn, and the script goes on.

The worked rows below are played line by line over an allocator that refuses one request. A line that prints `error memory` is given
again. But for those words the script prints then what it prints with ample memory: so nothing was lost, and nothing was done twice. A
header line that is refused so ends the script. Where the request was made to read or to write, the script ends, and what it printed is
a beginning of that.
"""

import subprocess
import threading
from functools import partial

from .outcomes import Failure, Test, expect_same, expect_status
from .refusing import Library, launch
from .scripts import contents

ROWS = (
    "retry_of_two_requesters",
    "clash_that_the_cluster_wins",
    "clash_that_nobody_wins",
    "round_that_a_join_outgrows",
    "owners_node_leaves_between_grant_and_write",
    "grants_are_counted",
    "retries_run_out_and_a_holder_dies",
)
REFUSAL = b"error memory"
HEADERS = (b"cluster", b"lone")
# Lines that are no commands part what a line prints from what the next one does. One of them may be what is refused.
FIRST_MARK, LAST_MARK = b"?", b"\xc8"
ANSWER_OF_FIRST, ANSWER_OF_LAST = b"error bad_line", b"error not_ascii"


class Ended(Exception):
    """The script has ended."""


class Talk:
    """A script that is played while it is written, over an allocator that refuses one request."""

    def __init__(self, program, library, number):
        pipes = {"stdin": subprocess.PIPE, "stdout": subprocess.PIPE, "stderr": subprocess.DEVNULL}
        self.process, self.told = launch(library, {"REFUSED": str(number)}, [program.path, "script"], **pipes)
        self.timer = threading.Timer(program.seconds, self.process.kill)
        self.timer.start()

    def __enter__(self):
        return self

    def __exit__(self, *_):
        self.timer.cancel()
        self.process.kill()
        self.process.wait()
        self.process.stdout.close()
        self.told.close()

    def reads(self):
        line = self.process.stdout.readline()
        if not line:
            raise Ended
        return line.rstrip(b"\n")

    def hears(self, line, heard):
        """Puts what a line prints behind what was heard, and tells whether memory was refused to it."""
        try:
            self.process.stdin.write(b"%s\n%s\n%s\n" % (line, FIRST_MARK, LAST_MARK))
            self.process.stdin.flush()
        except BrokenPipeError:
            raise Ended from None
        is_marked, refused = False, False
        while True:
            answer = self.reads()
            if answer == ANSWER_OF_LAST or is_marked:
                return refused
            if answer == ANSWER_OF_FIRST:
                is_marked = True
            elif answer == REFUSAL:
                # It is the mark's, where the last mark is answered next.
                answer = self.reads()
                if answer == ANSWER_OF_LAST:
                    return False
                is_marked = refused = True
            else:
                heard.append(answer)

    def end(self):
        """Ends the script, and tells its status and whether a request was refused."""
        try:
            self.process.stdin.close()
        except BrokenPipeError:
            pass
        return self.process.wait(), b"refused" in self.told.read()


def headers_first(lines):
    """The lines, with the headers as one: nothing may stand between them."""
    count = sum(line.startswith(HEADERS) for line in lines[:2])
    return [b"\n".join(lines[:count]), *lines[count:]]


def is_beginning(heard, expected):
    return heard == expected[: len(heard)]


def play(program, library, lines, expected, number):
    """Plays the lines while this request is refused. Tells whether there was one, and whether a line was refused for it and the script
    went on."""
    heard, has_ended, is_refused = [], False, False
    with Talk(program, library, number) as talk:
        try:
            for line in lines:
                while talk.hears(line, heard):
                    is_refused = True
                    if line.startswith(HEADERS):
                        raise Ended
        except Ended:
            has_ended = True
        status, was_refused = talk.end()
    where = f"the script with its request {number} refused"
    expect_status(1, status)
    if has_ended and was_refused and is_beginning(heard, expected):
        return True, False
    if has_ended:
        raise Failure(f"{where} ended behind {len(heard)} of {len(expected)} lines")
    expect_same(where, b"\n".join(expected), b"\n".join(heard))
    return was_refused, is_refused


def refuse_each(program, library, path):
    """Refuses each request of a script in turn, until a run meets none. Most of them are made for a line that is refused then."""
    lines = headers_first(contents(f"{path}.script").splitlines())
    expected = contents(f"{path}.out").splitlines()
    number, gone_on = 0, 0
    was_refused = True
    while was_refused:
        number += 1
        was_refused, is_refused = play(program, library, lines, expected, number)
        gone_on += is_refused
    if 2 * gone_on < number:
        raise Failure(f"of {number - 1} refused requests the script went on behind {gone_on}")


def tests(program, root):
    library = Library(root)
    for row in ROWS:
        yield Test(f"refused memory/{row}", partial(refuse_each, program, library, f"{root}/tests/scripts/{row}"))
