"""Runs of the program over an allocator that refuses requests for memory."""

import os
import shutil
import subprocess
import tempfile
import threading

from .outcomes import Failure


class Library:
    """The allocator that refuses, which is compiled where it is first asked for."""

    def __init__(self, root):
        self.source = f"{root}/tests/acceptance/refusing.c"
        self.lock = threading.Lock()
        self.folder = None

    def __call__(self):
        with self.lock:
            if not self.folder:
                compiler = shutil.which("cc") or shutil.which("gcc")
                if not compiler:
                    raise Failure("there is no C compiler to build the allocator that refuses")
                folder = tempfile.TemporaryDirectory()
                made = f"{folder.name}/refusing.so"
                subprocess.run([compiler, "-O1", "-shared", "-fPIC", "-o", made, self.source, "-ldl"], check=True)
                self.folder = folder
            return f"{self.folder.name}/refusing.so"


def launch(library, settings, words, **how):
    """Starts a program over the allocator. Gives it, and the end of the pipe on which the allocator tells what it refused."""
    told, teller = os.pipe()
    # The allocator tells on descriptor 3. Bash itself isn't run over it.
    command = ["bash", "-c", f'exec 3>&{teller}; LD_PRELOAD="$0" exec "$@"', library(), *words]
    process = subprocess.Popen(command, env={**os.environ, **settings}, pass_fds=(teller,), **how)
    os.close(teller)
    return process, os.fdopen(told, "rb")
