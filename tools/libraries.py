#!/usr/bin/env python3
"""Proves and builds the libraries that a crate uses, side by side, as rt lib does one after the other.

usage: tools/libraries.py CRATE [--jobs N]

  --jobs N  N of them at a time, each in one job; without it, as many as there are processors and memory, at most 4. Then the one that
            most others wait for, one after another, is proved in three jobs, and each in two where few can be proved at a time: the
            processors would wait at the end for a chain of crates whose proofs had one job each

It says 'libraries to prove: N' first, 'proving NAME' as it begins with a library, and 'proved NAME' behind it. A library that stands
as it is isn't built again. The status is 0 where all stand, 1 where one isn't proved, and 2 where nothing was tried.
"""
import argparse
import contextlib
import copy
import importlib.machinery
import importlib.util
import os
import re
import shutil
import signal
import sys
import tempfile
import threading

sys.dont_write_bytecode = True
ROOT = os.path.dirname(os.path.dirname(os.path.realpath(__file__)))
MOST_LANES = 4
# What a proof in several jobs may take: node_core, the largest, took 4 GB.
LANE_BYTES = 5_000_000_000
PRINTING = threading.Lock()


def stop(why):
    print(f"{os.path.relpath(os.path.realpath(sys.argv[0]), ROOT)}: {why}", file=sys.stderr)
    sys.exit(2)


def say(text):
    with PRINTING:
        print(text, flush=True)


def positive(text):
    number = int(text) if text.isdigit() else 0
    if not number:
        raise argparse.ArgumentTypeError("a number above 0 is wanted")
    return number


def remembered(compute):
    """The method of a crate, computed once for each, and not for each path that leads to it through crates.txt."""
    known = {}

    def once(crate):
        if crate.folder not in known:
            known[crate.folder] = compute(crate)
        return known[crate.folder]

    once.anew = compute
    return once


def load_kit(jobs):
    """The program rt as a module: it knows the crates, and how one is checked. Call it in the main thread, which alone may set
    signals' handlers."""
    found = shutil.which("rt")
    if not found:
        stop("there is no rt on the PATH: the toolchain's folder bin has it")
    loader = importlib.machinery.SourceFileLoader("rt", os.path.realpath(found))
    kit = importlib.util.module_from_spec(importlib.util.spec_from_loader("rt", loader))
    loader.exec_module(kit)
    kit.rtlib.guarded()
    os.environ.pop(kit.rtlib.ALLOW_C, None)
    # (of a library that doesn't fit antt can say either, and then nothing was tried)
    kit.rtlib.STALE = re.compile(f"{kit.rtlib.STALE.pattern}|has no usable cached file")
    for name in ("below", "stamp"):
        setattr(kit.rtlib.Crate, name, remembered(getattr(kit.rtlib.Crate, name)))
    if jobs:
        os.environ["RT_JOBS"] = str(jobs)
    lanes = min(kit.processors(), MOST_LANES)
    kit.processors = lambda: lanes
    return kit


@contextlib.contextmanager
def lanes_of_one(kit):
    """Has the kit begin with a crate wherever a lane is free, so that the jobs of each are chosen here. Without it, a crate that starts
    as the last lane gets free has one job, however many are free later."""
    asked = os.environ.get("RT_JOBS")
    os.environ["RT_JOBS"] = asked or str(max(1, min(kit.processors(), int(kit.free() / LANE_BYTES))))
    try:
        yield
    finally:
        if not asked:
            del os.environ["RT_JOBS"]


def chains(crates):
    """The source lines of each of these crates and of those that wait for it, along the longest chain. Each crate comes behind those below it."""
    longest = {it.name: 0 for it in crates}
    for crate in reversed(crates):
        longest[crate.name] += crate.count(rb"\n")
        for it in crate.below():
            if it.name in longest:
                longest[it.name] = max(longest[it.name], longest[crate.name])
    return longest


def jobs_of(crate, at_hand, longest):
    """How many jobs a crate gets, by those that are being proved or could be."""
    most = 3 if crate.name == max(at_hand, key=longest.get) else 2 if len(at_hand) <= 3 else 1
    return min(most, int(os.environ["RT_JOBS"]))


def build(crate, jobs):
    """Builds a library as rt lib does, and returns whether it stands."""
    crate = copy.copy(crate)
    say(f"proving {crate.name}")
    with tempfile.TemporaryFile("w+", errors="replace") as crate.out:
        os.makedirs(f"{crate.folder}/out", exist_ok=True)
        status = crate.build_rlib(["--jobs", str(jobs)], anew=False)
        crate.out.seek(0)
        if status:
            say(f"{crate.out.read()}\nnot proved: {crate.name}")
            return False
    if type(crate).stamp.anew(crate) != crate.stamp():
        os.remove(f"{crate.folder}/out/rlib/stamp")
        say(f"the files of {crate.name} changed while it was built")
        return False
    say(f"proved {crate.name}")
    return True


def build_missing(kit, libraries, unbuilt):
    """Builds those of the libraries that aren't built, and returns the names of those that can't be."""
    if not unbuilt(kit, libraries):
        return set()
    held = kit.rtlib.lock(libraries)
    missing = unbuilt(kit, libraries)
    say(f"libraries to prove: {len(missing)}")
    chosen = "RT_JOBS" not in os.environ
    waits = {crate.name: [(it.name, "proof") for it in crate.below() if it in missing] for crate in missing}
    longest = chains(missing)

    def jobs_now(crate, given):
        known = dict(given)
        at_hand = [name for name, those in waits.items() if (name, "proof") not in known and all(it in known for it in those)]
        return jobs_of(crate, at_hand, longest) if chosen else 1

    tasks = {}
    for crate in missing:

        def work(given, jobs, crate=crate):
            return all(given[it] for it in waits[crate.name]) and build(crate, jobs_now(crate, given))

        tasks[crate.name, "proof"] = waits[crate.name], crate.count(rb"\n"), kit.need(crate), work
    with lanes_of_one(kit):
        given = kit.in_lanes(tasks)
    for it in held:
        os.close(it)
    return {name for (name, _), is_built in given.items() if not is_built}


def unbuilt(kit, libraries):
    return [it for it in libraries if not it.is_built()]


def main():
    words = argparse.ArgumentParser(description="Proves and builds the libraries that a crate uses, side by side.")
    words.add_argument("crate", metavar="CRATE")
    words.add_argument("--jobs", type=positive, metavar="N", help="N of them at a time; else as many as there are processors and memory, at most 4")
    asked = words.parse_args()
    # With its own handler, Python would wait at Ctrl-C for the checks that run.
    signal.signal(signal.SIGINT, signal.SIG_DFL)
    os.chdir(ROOT)
    kit = load_kit(asked.jobs)
    crates = {it.name: it for it in kit.rtlib.crates_below(ROOT)}
    if asked.crate not in crates:
        stop(f"crates.txt names no crate {asked.crate}")
    return 1 if build_missing(kit, crates[asked.crate].below(), unbuilt) else 0


if __name__ == "__main__":
    try:
        sys.exit(main())
    except Exception as why:
        stop(f"the toolchain isn't one that this script knows: {why!r}")
