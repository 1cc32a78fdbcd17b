"""Scripts: each is played, and prints exactly what is expected, nothing on standard error, and ends with its status."""

import os
import re
from functools import partial

from . import made
from .outcomes import Failure, Test, expect_same, expect_status


def play(program, script, output, status):
    """Plays a script."""
    ran = program.run(["script"], input=script)
    expect_same("output", output, ran.stdout)
    expect_same("standard error", b"", ran.stderr)
    expect_status(status, ran.returncode)


def contents(path):
    with open(path, "rb") as file:
        return file.read()


def kept_status(answers):
    """The status that stands beside a script's answers, or 0 where none does."""
    path = f"{answers}.status"
    return int(contents(path)) if os.path.exists(path) else 0


def kept(program, scripts, answers, label):
    """The scripts of a folder; another folder, or the same, has their answers."""
    for file in sorted(os.listdir(scripts)):
        name, kind = os.path.splitext(file)
        if kind == ".script":
            answer = f"{answers}/{name}"
            run = lambda file=file, answer=answer: play(
                program, contents(f"{scripts}/{file}"), contents(f"{answer}.out"), kept_status(answer)
            )
            yield Test(f"{label}/{name}", run)


def has_refusal(output):
    return any(it.startswith(b"error ") for it in output.split(b"\n"))


def play_documented(program, path):
    """Plays each script of a document, which stands in a block of its own; the next block has what it prints."""
    blocks = re.findall(rb"^```\n(cluster .*?)^```\n\nprints\n\n```\n(.*?)^```\n", contents(path), re.M | re.S)
    if not blocks:
        raise Failure("no script stands there")
    for script, output in blocks:
        play(program, script, output, 1 if has_refusal(output) else 0)


def tests(program, root):
    here = f"{root}/tests"
    yield from kept(program, f"{here}/scripts", f"{here}/scripts", "scripts")
    yield from kept(program, f"{root}/examples", f"{here}/examples", "examples")
    yield Test("docs/SCRIPT.md", partial(play_documented, program, f"{root}/docs/SCRIPT.md"))
    for it in made.scripts():
        yield Test(f"scripts/{it.name}", partial(play, program, it.script, it.output, it.status))
