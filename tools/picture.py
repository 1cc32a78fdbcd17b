#!/usr/bin/env python3
"""Prints the picture of the crates that stands in docs/ARCHITECTURE.md, drawn from crates.txt.

usage: tools/picture.py

By floors, which are the headings of crates.txt; crates of tests and ported ones are left out. An arrow leads from a crate to those that it
needs, but for those that one of these needs itself. Crates with the same needs stand together, and where each of several crates needs just
the next one they are one line. tests/run compares the picture with the document.
"""
import os

ROOT = os.path.dirname(os.path.dirname(os.path.realpath(__file__)))


def read_floors():
    """The floors with their crates, and what each crate needs, by the file crates.txt."""
    floors, needs = {}, {}
    with open(f"{ROOT}/crates.txt", encoding="utf-8") as file:
        for line in file.read().split("\n"):
            name, colon, rest = line.partition(":")
            if line.startswith("#"):
                floor = floors.setdefault(name.strip("# "), [])
            elif colon:
                needs[name] = rest.split()
                floor.append(name)
    return floors, {name: [it for it in those if it in needs] for name, those in needs.items()}


def below(needs, name):
    """All crates that a crate stands on."""
    return {it for need in needs[name] for it in (need, *below(needs, need))}


def is_of_tests(name):
    return name.endswith("_tests")


def groups_of(needs, floor):
    """The crates of a floor that need the same, each time with these needs."""
    groups = {}
    for name in floor:
        passed_on = {it for need in needs[name] for it in below(needs, need)}
        direct = tuple(it for it in needs[name] if it not in passed_on)
        if not is_of_tests(name):
            groups.setdefault(direct, []).append(name)
    return [(names, direct) for direct, names in groups.items()]


def lines_of(groups):
    """A line for each group that isn't the end of another's chain."""
    alone = {names[0]: direct for names, direct in groups if len(names) == 1}
    lines, drawn = [], set()
    for names, direct in reversed(groups):
        if names[0] in drawn:
            continue
        chain = [names]
        while len(direct) == 1 and direct[0] in alone and direct[0] not in drawn:
            drawn.add(direct[0])
            chain.append(direct)
            direct = alone[direct[0]]
        lines.append(" -> ".join(", ".join(it) for it in [*chain, direct] if it))
    return [*reversed(lines)]


def picture():
    floors, needs = read_floors()
    rows = []
    for floor, names in floors.items():
        rows += [floor, *(f"    {line}" for line in lines_of(groups_of(needs, names))), ""]
    return "\n".join(rows[:-1])


if __name__ == "__main__":
    print(picture())
