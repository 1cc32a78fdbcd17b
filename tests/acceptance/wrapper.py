"""The wrapper, in a small tree of its own: what it can't build, and what it hands on to a program that is built."""

import os
import shlex
import shutil
import stat
import tempfile
from contextlib import contextmanager
from functools import partial

from .outcomes import Failure, Test, expect_same, expect_status
from .programs import path_without_kit, run


def write(path, text):
    os.makedirs(os.path.dirname(path), exist_ok=True)
    with open(path, "w") as file:
        file.write(text)


def make_command(path, text):
    write(path, f"#!/bin/sh\n{text}\n")
    os.chmod(path, os.stat(path).st_mode | stat.S_IXUSR)


@contextmanager
def tree(root):
    """A tree with the wrapper and one crate, which can't be built."""
    with tempfile.TemporaryDirectory(prefix="wrapper-") as folder:
        shutil.copy(f"{root}/cluster_main", f"{folder}/cluster_main")
        write(f"{folder}/crates.txt", "cluster_main:\n")
        write(f"{folder}/crates/cluster_main/src/main.rt", "//! No program.\n")
        yield folder


def call(folder, words, seconds, has_kit=False, script=b""):
    """Calls the wrapper of a tree: with no kit, or with what stands for one there."""
    kit = f"{folder}/kit{os.pathsep}" if has_kit else ""
    path = {**os.environ, "PATH": kit + path_without_kit()}
    return run([f"{folder}/cluster_main", *words], seconds, input=script, env=path)


def expect(ran, output, status):
    expect_same("standard output", output, ran.stdout)
    expect_status(status, ran.returncode)


def cannot_build_without_the_kit(program, root):
    with tree(root) as folder:
        ran = call(folder, ["script"], program.seconds)
    expect(ran, b"", 3)
    if not ran.stderr:
        raise Failure("it doesn't tell why")


def tells_how_a_build_failed(program, root):
    with tree(root) as folder:
        make_command(f"{folder}/kit/rt", "echo this is no proof; exit 1")
        ran = call(folder, ["script"], program.seconds, has_kit=True)
    expect(ran, b"", 3)
    if b"this is no proof" not in ran.stderr:
        raise Failure("it doesn't tell what the build said")


def hands_on_what_it_is_given(program, root):
    """What is built once runs without the kit, as long as the sources are the same."""
    with tree(root) as folder:
        out = f"{folder}/crates/cluster_main/out"
        make_command(f"{folder}/kit/rt", f"mkdir -p {out} && cp {shlex.quote(program.path)} {out}/cluster_main")
        script = b"cluster a\nspawn a\n"
        expect(call(folder, ["script"], program.seconds, has_kit=True, script=script), b"a.1\n", 0)
        expect(call(folder, ["script"], program.seconds, script=script), b"a.1\n", 0)
        expect(call(folder, ["script"], program.seconds, script=b"cluster a\nbogus\n"), b"error bad_line\n", 1)
        expect(call(folder, ["serve", "--listen"], program.seconds), b"", 2)
        expect(call(folder, [], program.seconds), b"", 2)
        write(f"{folder}/crates/cluster_main/src/main.rt", "//! Another program.\n")
        expect(call(folder, ["script"], program.seconds, script=script), b"", 3)


def tries_what_it_is_given(program, root):
    """The kit is called in the program's folder, and what it prints and its status are handed on."""
    with tree(root) as folder:
        expect(call(folder, ["try", "script"], program.seconds), b"", 3)
        make_command(f"{folder}/kit/rt", 'basename "$PWD"; echo "$@"; cat; exit 5')
        ran = call(folder, ["try", "script", "more"], program.seconds, has_kit=True, script=b"cluster a\n")
    expect(ran, b"cluster_main\ntry -- script more\ncluster a\n", 5)
    if b"nothing is proved" not in ran.stderr:
        raise Failure("it doesn't tell that nothing is proved")


def tests(program, root):
    for it in [
        cannot_build_without_the_kit,
        tells_how_a_build_failed,
        hands_on_what_it_is_given,
        tries_what_it_is_given,
    ]:
        yield Test(f"wrapper/{it.__name__}", partial(it, program, root))
