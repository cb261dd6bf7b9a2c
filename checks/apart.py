#!/usr/bin/env python3
"""Sees that nothing which `shrink` runs is a checker's code: that what it writes is accepted is shown by laws, and not tried.

  checks/apart.py     prints each place that is amiss; the exit status is 1 where there is one

The writer (the crate rewriter, with all that it stands on) uses no crate of the checker. The code of the command, from
commands/src/shrink.rt on, may use such a crate for its laws alone: functions of a file laws.rt, whose bodies are empty or call other laws.
"""
import os
import re
import sys

TOP = os.path.dirname(os.path.dirname(os.path.abspath(__file__)))
CRATES = os.path.join(TOP, "crates")
WRITER, COMMANDS, COMMAND = "rewriter", "commands", "shrink"
CHECKERS = re.compile(r"check_\w+|tidy_\w+|same_meaning|unit_slots|verdict")
USE = re.compile(r"^(?:pub )?use (\w+)::(?:\{([^}]*)\}|(\w+)(?:::[^;]*)?);", re.M)
# A law: a function with clauses whose body is empty, or calls other laws alone.
LAW = re.compile(r"^pub fn (\w+)\(\)\n(?:    (?:requires|ensures) .*\n)*\{(?:\}|\n((?:    \w+\(\);\n)+)\})", re.M)


def read(*path):
    with open(os.path.join(*path), encoding="utf-8") as handle:
        return handle.read()


def dependencies():
    """Each crate's libraries, by crates.txt."""
    rows = re.findall(r"^(\w+):(.*)$", read(TOP, "crates.txt"), re.M)
    return {name: uses.split() for name, uses in rows}


def below(crate, uses):
    """The crate and all that it stands on."""
    found, left = set(), [crate]
    while left:
        name = left.pop()
        if name not in found:
            found.add(name)
            left += uses.get(name, [])
    return found


def used_names(text):
    """The crates that a file's `use` lines name, each with the names that are taken from it."""
    for crate, several, one in USE.findall(text):
        yield crate, [name.split(" as ")[0].strip() for name in (several or one).split(",") if name.strip()]


def files_of_command():
    """The files of the command, from its own on along `use crate::`."""
    found, left = {}, [COMMAND]
    while left:
        name = left.pop()
        path = os.path.join(CRATES, COMMANDS, "src", name + ".rt")
        if name not in found and os.path.exists(path):
            found[name] = read(path)
            left += re.findall(r"\bcrate::(\w+)::", found[name])
    return found


def laws_of(crate):
    """The laws of a crate: each calls nothing, or what its file takes from the laws of other crates."""
    path = os.path.join(CRATES, crate, "src", "laws.rt")
    if not os.path.exists(path):
        return set()
    text = read(path)
    taken = {name for other, names in used_names(text) for name in set(names) & laws_of(other)}
    laws = LAW.findall(text)
    own = {name for name, calls in laws if not calls}
    return own | {name for name, calls in laws if calls and set(re.findall(r"\w+", calls)) <= taken | own}


def amiss():
    uses = dependencies()
    for crate in sorted(below(WRITER, uses)):
        if CHECKERS.fullmatch(crate):
            yield f"crates.txt: {WRITER} stands on {crate}, a crate of the checker"
    for name, text in sorted(files_of_command().items()):
        for crate, names in used_names(text):
            if CHECKERS.fullmatch(crate):
                for other in sorted(set(names) - laws_of(crate)):
                    yield f"{COMMANDS}/src/{name}.rt: takes {other} of {crate}, which is no law"


def main():
    places = list(amiss())
    for place in places:
        print(place)
    return 1 if places else 0


if __name__ == "__main__":
    sys.exit(main())
