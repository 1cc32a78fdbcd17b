"""Runs of the program, and where it stands."""

import errno
import os
import shutil
import subprocess
import time
from dataclasses import dataclass

from .outcomes import Failure


@dataclass(frozen=True)
class Program:
    """The program that is tested, and how many seconds each answer of it is waited for."""

    path: str
    seconds: float

    def run(self, words, **how):
        """Runs it with these words to its end."""
        return run([self.path, *words], self.seconds, **how)


# How many tenths of a second a file that was just written may be busy.
MOST_BUSY = 50


def started(command, **how):
    """Runs a command to its end. What was written just now may be busy, while a program that another test starts has it open."""
    for _ in range(MOST_BUSY):
        try:
            return subprocess.run(command, **how)
        except OSError as why:
            if why.errno != errno.ETXTBSY:
                raise
            time.sleep(0.1)
    return subprocess.run(command, **how)


def run(command, seconds, **how):
    """Runs a command to its end, with no input and with pipes where nothing else is said."""
    if "input" not in how:
        how.setdefault("stdin", subprocess.DEVNULL)
    how.setdefault("stdout", subprocess.PIPE)
    how.setdefault("stderr", subprocess.PIPE)
    try:
        return started(command, timeout=seconds, **how)
    except subprocess.TimeoutExpired:
        raise Failure(f"it had not ended after {seconds:g} seconds") from None


def path_without_kit():
    """The search path less each folder that has the command of Rattle's kit."""
    folders = os.environ.get("PATH", "").split(os.pathsep)
    return os.pathsep.join(it for it in folders if not shutil.which("rt", path=it))


def built_program(root):
    """The program that the wrapper built from the present sources, else what stands in the crate's folder, or none."""
    of_crate = f"{root}/crates/cluster_main/out/cluster_main"
    try:
        # Where nothing can be built, the wrapper runs the program that is built already, or ends with status 3.
        wrapper = ["bash", f"{root}/cluster_main", "--version"]
        is_built = run(wrapper, 60, env={**os.environ, "PATH": path_without_kit()}).returncode == 0
    except (OSError, Failure):
        is_built = False
    found = f"{root}/out/cluster_main" if is_built else of_crate
    return found if os.access(found, os.X_OK) else None
