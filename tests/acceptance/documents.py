"""The documents, held against the tree: what they name is there. No program is played."""

import os
import re
import subprocess
import sys
from functools import partial

from . import arguments, clients, contracts, departures, pressed, scripts, talks, waits, wrapper
from .outcomes import Failure, Test
from .sources import Code, read

CONTRACTS = "docs/CONTRACTS.md"
ARCHITECTURE = "docs/ARCHITECTURE.md"
LIBRARY = "docs/LIBRARY.md"
# The tests that documents may name, as PART/NAME.
NAMED = [arguments, clients, departures, pressed, scripts, talks, waits, wrapper]
# Whatever these have in backticks stands in some file of the crates, tests or tools.
NAMING = ["ARCHITECTURE", "ASSURANCE", "DECISIONS", "GLOSSARY", "LIBRARY", "PROOF", "THREADS"]
# So many names of docs/CONTRACTS.md are judged at least. It is raised with its rows, so that what judges them can't come to pass them over.
FEWEST_JUDGED = 1250
# What is built, or kept beside the tree, and folders whose files aren't of the repository.
LEFT_OUT = {".git", "out", "__pycache__"}
PATH = re.compile(r"(?<![\w/.$~-])(?:\./)?((?:[\w.@*-]+/)+[\w.*-]*|[\w-]+\.(?:md|rt|antt|py|sh|script|txt|rs|edit|awk|c|status))(?![\w(/])")
ENDINGS = re.compile(r"\.(?:md|rt|antt|py|sh|script|txt|rs|edit|awk|c|status)$")
REMARK = re.compile(r"(?:--|//).*")
# A type that a crate hands to others.
PUBLIC_TYPE = re.compile(r"^pub (?:struct|enum|trait|type|union) (\w+)", re.M)
# Rows as they might go stale, and what is said of each.
PLANTED = [
    ("cluster_world", "| It is so | `World::play` (`ok`, `agreed`) |", "`agreed` is no clause of `play`"),
    ("cluster_world", "| It is so | `World::plays` |", "`World::plays` is no function there"),
    ("cluster_world", "| It is so | `World::play`, by `Startled` |", "`Startled` is nothing there"),
    ("cluster_world", "| It is so | `World::start`, by `Settles` |", "`Settles` isn't what is cited there"),
    ("cluster_world", "| It is so | `LockSeat` for `World` |", "`LockSeat for World` isn't there"),
    ("cluster_world", "| It is so (`Startled`) | `World::start` |", "`Startled` is nothing there"),
    ("replay", "| It is so | `replay` (`ok`), by `Replayed` (`outs`) |", "`outs` is nothing there"),
    ("term", "| It is so | `World::play` |", "`World::play` is no function there"),
]


def fail_for(wrong):
    if wrong:
        raise Failure(f"{len(wrong)} wrong: {'; '.join(wrong[:5])}")


def crates_have_their_chapters(code):
    text = read(f"{code.root}/{CONTRACTS}")
    named = [it for names, *_ in contracts.chapters(text) for it in names]
    tested = re.findall(r"`(\w+_tests)`", text.partition("\n## Crates of tests\n")[2].partition("\n## ")[0])
    every = named + tested
    wrong = [f"{it} has no chapter" for it in code.crates if it not in every]
    wrong += [f"{it} is no crate of crates.txt" for it in every if it not in code.crates]
    wrong += [f"{it} has two chapters" for it in {*every} if every.count(it) > 1]
    wrong += [f"crates/{it} isn't in crates.txt" for it in sorted(os.listdir(f"{code.root}/crates")) if it not in code.crates]
    fail_for(wrong)


def chapter_names_what_is_there(code, names, rows, body):
    fail_for(contracts.judge_chapter(code, names, rows, body)[0])


def many_names_are_judged(code):
    chapters = contracts.chapters(read(f"{code.root}/{CONTRACTS}"))
    count = sum(contracts.judge_chapter(code, *chapter)[1] for chapter in chapters if {*chapter[0]} <= {*code.crates})
    if count < FEWEST_JUDGED:
        raise Failure(f"{count} names of {CONTRACTS} are judged, and not {FEWEST_JUDGED}")


def wrong_row_is_found(code, crate, row, said):
    text = f"### `{crate}`\n\n| Claim | Contract |\n|---|---|\n{row}\n"
    wrong, _ = contracts.judge_chapter(code, *contracts.chapters(text)[0])
    if len(wrong) != 1 or said not in wrong[0]:
        raise Failure(f"of the wrong row {row} it is said: {wrong}")


def all_paths(root):
    """The paths of all files and folders of the tree, from its top."""
    for folder, folders, names in os.walk(root):
        folders[:] = sorted(it for it in folders if it not in LEFT_OUT)
        for name in [*folders, *names]:
            yield os.path.relpath(f"{folder}/{name}", root)


def ends_of(paths):
    """Each path with all its ends: a file may be named from any folder that it is in."""
    return {path[at:] for path in paths for at in [0, *(it.end() for it in re.finditer("/", path))]}


def is_path(word, tops):
    """Whether a word that looks like a path is one, and one that stands: it has a file's ending, or begins in a folder at the top; and what
    is to be put in for capitals, and what is built, is left out."""
    parts = word.split("/")
    if LEFT_OUT & {*parts} or any(re.fullmatch(r"[A-Z]{2,}\b.*", it) and not it.endswith(".md") for it in parts):
        return False
    return bool(ENDINGS.search(word)) or parts[0] in tops and len(parts) > 1


def paths_in(text, tops):
    return [it for it in (match[1].rstrip(".").rstrip("/") for match in PATH.finditer(text)) if is_path(it, tops)]


def document_names_paths_that_are_there(root, document, tests):
    paths = [*all_paths(root)]
    ends, tops = ends_of(paths), {*os.listdir(root)} - LEFT_OUT
    text = read(f"{root}/{document}")
    wrong = []
    for it in paths_in(text, tops):
        form = re.compile(re.escape(it).replace(r"\*", "[^/]*"))
        if it not in ends and it not in tests and not ("*" in it and any(form.fullmatch(end) for end in ends)):
            wrong.append(f"there is no {it}")
    for path, title in re.findall(r'(docs/\w+\.md), "([^"]+)"', text):
        if not re.search(rf"^#+ {re.escape(title)}( \(.*\))?$", read(f"{root}/{path}"), re.M):
            wrong.append(f'{path} has no chapter "{title}"')
    fail_for(wrong)


def words_of_tree(root):
    """All words in the files of crates, tests and tools, less the remarks of the crates, and the names of these files."""
    found = set()
    for path in all_paths(root):
        found.add(os.path.basename(path).partition(".")[0])
        if path.split("/")[0] not in ("docs", "README.md") and os.path.isfile(f"{root}/{path}"):
            with open(f"{root}/{path}", encoding="utf-8", errors="replace") as file:
                text = re.sub(REMARK, "", file.read()) if path.startswith("crates/") else file.read()
                found |= {*re.findall(r"[^\W\d]\w*", text)}
    return found


def names_stand_in_the_tree(code):
    words = words_of_tree(code.root) | {*code.crates}
    wrong = []
    for document in NAMING:
        names = {*re.findall(r"`([^\W\d]\w*(?:::\w+)*)`", read(f"{code.root}/docs/{document}.md"))}
        wrong += [f"{it} of docs/{document}.md" for it in sorted(names) if not {*it.split("::")} <= words]
    fail_for(wrong)


def claims_of_readme_are_carried(code):
    """The contracts in brackets in README.md's chapter of what is proved."""
    text = read(f"{code.root}/README.md").partition("\n## What is proved, and what isn't\n")[2].partition("\nNot proved; ")[0]
    every = [it for own in code.crates.values() for it in own.functions]
    known = {it.name for it in every} | {f"{owner}::{it.name}" for it in every for owner in it.owners}
    clauses = {clause for it in every for clause in it.clauses}
    names = [it for brackets in re.findall(r"\(([^()]*)\)", text) for it in re.findall(r"`([a-zA-Z_:]+)`", brackets)]
    if not names:
        raise Failure("its chapter of what is proved names no contract")
    fail_for([f"{it} is no function" for it in names if it not in known | clauses])


def code_of_library_stands(root):
    """Each block of code in docs/LIBRARY.md is a text of the file that was named last before it."""
    parts = re.split(r"^```rust\n(.*?)^```\n", read(f"{root}/{LIBRARY}"), flags=re.M | re.S)
    if len(parts) < 3:
        raise Failure("no code stands there")
    named, wrong = [], []
    for text, code in zip(parts[::2], parts[1::2]):
        named += re.findall(r"`(crates/\S+\.rt)`", text)
        if not named or code not in read(f"{root}/{named[-1]}"):
            wrong.append(f"{named[-1:]} hasn't {code.partition(chr(10))[0]}")
    fail_for(wrong)


def named_tests_are_there(root, tests):
    parts = {it.split("/")[0] for it in tests}
    wrong = []
    for document in documents_of(root):
        named = re.findall(r"`(\w+/[a-z]\w+)`", read(f"{root}/{document}"))
        missing = [it for it in named if it not in tests and not os.path.exists(f"{root}/{it}")]
        wrong += [f"{document} names {it}" for it in missing if it.split("/")[0] in parts]
    fail_for(wrong)


def central_edits_are_there(root):
    listed = read(f"{root}/edits/central").split()
    wrong = [f"there is no {it}" for it in listed if not os.path.isfile(f"{root}/edits/{it}.edit")]
    fail_for(wrong + [f"{it} is listed twice" for it in {*listed} if listed.count(it) > 1])


def picture_is_drawn(root):
    drawn = subprocess.run([sys.executable, f"{root}/tools/picture.py"], capture_output=True, text=True, check=True).stdout
    if f"```\n{drawn}```\n" not in read(f"{root}/{ARCHITECTURE}"):
        raise Failure(f"the picture in {ARCHITECTURE} isn't what tools/picture.py draws")


def map_has_each_crate(code):
    """The three floors of docs/ARCHITECTURE.md have the crates of crates.txt, but for those of tests, each behind those that it needs."""
    text = read(f"{code.root}/{ARCHITECTURE}").partition("\n## Three floors\n")[2].partition("```\n")[2].partition("```\n")[0]
    words = re.findall(r"\w+", text)
    wrong = [f"{it} stands in no floor" for it in code.crates if it not in words and not it.endswith("_tests")]
    for at, name in enumerate(words):
        needs = code.crates[name].needs if name in code.crates else []
        wrong += [f"{name} stands before {it}, which it needs" for it in needs if it not in words[:at]]
    fail_for(wrong + [f"{it} stands in a floor, and is no crate" for it in words if "_" in it and it not in code.crates])


def types_that_cross_crates_are_there(code):
    """The table of docs/GLOSSARY.md that tells what the types are that crates hand to one another."""
    text = read(f"{code.root}/docs/GLOSSARY.md").partition("\n## Types that cross crates\n")[2].partition("\n## ")[0]
    rows = re.findall(r"^\| `(\w+)`(?:, `(\w+)`)? \| `(\w+)`(?:, `(\w+)`)? \|", text, re.M)
    if not rows:
        raise Failure("the table isn't there")
    known = [(name, crate) for one, other, first, last in rows for name, crate in [(one, first), (other, last or first)] if name]
    wrong = [f"{crate} is no crate" for _, crate in known if crate not in code.crates]
    known = [(name, code.crates[crate]) for name, crate in known if crate in code.crates]
    fail_for(wrong + [f"{it.name} has no {name}" for name, it in known if name not in it.types and name not in it.definitions])


def public_types_have_one_name_each(code):
    """No two crates have a public type of one name."""
    homes = {}
    for it in code.crates.values():
        for name in sorted({name for _, text in it.sources for name in PUBLIC_TYPE.findall(text)}):
            homes.setdefault(name, []).append(it.name)
    fail_for([f"{name} is a type of {' and of '.join(crates)}" for name, crates in sorted(homes.items()) if len(crates) > 1])


def documents_of(root):
    """The documents, and what users are given beside them."""
    found = [it for it in all_paths(root) if it.endswith(".md") or it.split("/")[0] in ("clients", "examples")]
    return sorted(it for it in found if os.path.isfile(f"{root}/{it}"))


def tests(program, root):
    code = Code(root)
    others = {it.name for module in NAMED for it in module.tests(program, root)}

    def test(name, check, *given):
        return Test(f"documents/{name}", partial(check, *given))

    yield test("crates_have_their_chapters", crates_have_their_chapters, code)
    for names, rows, body in contracts.chapters(read(f"{root}/{CONTRACTS}")):
        if {*names} <= {*code.crates}:
            yield test(f"chapter_of_{names[0]}", chapter_names_what_is_there, code, names, rows, body)
    yield test("many_names_are_judged", many_names_are_judged, code)
    for at, (crate, row, said) in enumerate(PLANTED):
        yield test(f"wrong_row_{at + 1}_is_found", wrong_row_is_found, code, crate, row, said)
    for document in documents_of(root):
        yield test(f"paths_in_{document}", document_names_paths_that_are_there, root, document, others)
    yield test("names_stand_in_the_tree", names_stand_in_the_tree, code)
    yield test("claims_of_readme_are_carried", claims_of_readme_are_carried, code)
    yield test("code_of_library_stands", code_of_library_stands, root)
    yield test("named_tests_are_there", named_tests_are_there, root, others)
    yield test("types_that_cross_crates_are_there", types_that_cross_crates_are_there, code)
    yield test("public_types_have_one_name_each", public_types_have_one_name_each, code)
    yield test("central_edits_are_there", central_edits_are_there, root)
    yield test("picture_is_drawn", picture_is_drawn, root)
    yield test("map_has_each_crate", map_has_each_crate, code)
