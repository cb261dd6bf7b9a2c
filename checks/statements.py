#!/usr/bin/env python3
"""Refuses lemmas that are stated again: what stands word for word in the proofs of more than one crate, and more often than is known.

  checks/statements.py            compares with checks/statements.known; the exit status is 1 where a statement has more copies
  checks/statements.py --list     prints all such statements with their places, first those by which the most lines could go
  checks/statements.py --write    writes checks/statements.known anew

A statement is the type of a declaration, as text. Left out are those of up to 40 characters, the types of definitions, which state
nothing, and the goals that the prover states itself.
"""
import argparse
import collections
import dataclasses
import glob
import hashlib
import os
import re
import signal
import sys

TOP = os.path.dirname(os.path.dirname(os.path.abspath(__file__)))
KNOWN = "checks/statements.known"
LONG = 40
# The words before a name, the name, and what stands of its type on the first line.
DECLARATION = re.compile(r"((?:pub |abbrev |unfoldable )*)([^\s:-]\S*) :(?: (.*)|)$")
KNOWN_HEAD = """# The lemma statements that stand word for word in more than one crate: the digest of each, a name that it has, and the crates of its
# copies. checks/statements.py refuses more copies, and checks/statements.py --write writes this list anew.
"""


@dataclasses.dataclass
class Lemma:
    """A place where a statement stands, with the lines of its proof."""

    path: str
    line: int
    name: str
    is_public: bool
    lines: int

    def crate(self):
        return self.path.split("/")[1]


def lemmas_in(path):
    """The statements of a file of proofs, each with its lemma."""
    with open(os.path.join(TOP, path), encoding="utf-8") as handle:
        lines = handle.read().split("\n")
    starts = [(number, match) for number, line in enumerate(lines) for match in [DECLARATION.match(line)] if match]
    ends = [number for number, _ in starts[1:]] + [len(lines)]
    for (start, match), end in zip(starts, ends):
        words, name, first = match.groups()
        if "abbrev" in words or "unfoldable" in words:
            continue
        behind = start + 1
        while behind < end and lines[behind].startswith(" "):
            behind += 1
        statement = " ".join(" ".join([first or "", *lines[start + 1 : behind]]).split())
        proof = [line for line in lines[start:end] if line.strip() and not line.startswith("--")]
        if not statement.startswith("goal."):
            yield statement, Lemma(path, start + 1, name, "pub" in words, len(proof))


def repeated():
    """The long statements that stand in more than one crate, each with its lemmas."""
    found = collections.defaultdict(list)
    for path in sorted(glob.glob(os.path.join(TOP, "crates/*/proofs/**/*.antt"), recursive=True)):
        for statement, lemma in lemmas_in(os.path.relpath(path, TOP)):
            if len(statement) > LONG:
                found[statement].append(lemma)
    return {statement: lemmas for statement, lemmas in found.items() if len({lemma.crate() for lemma in lemmas}) > 1}


def digest(statement):
    return hashlib.sha256(statement.encode()).hexdigest()[:12]


def known():
    """How many copies of each statement are known, by its digest."""
    path = os.path.join(TOP, KNOWN)
    if not os.path.exists(path):
        return {}
    with open(path, encoding="utf-8") as handle:
        rows = [line.split() for line in handle if line.strip() and not line.startswith("#")]
    return {row[0]: len(row) - 2 for row in rows}


def write(groups):
    rows = sorted((min(lemma.name for lemma in lemmas), digest(statement), lemmas) for statement, lemmas in groups.items())
    with open(os.path.join(TOP, KNOWN), "w", encoding="utf-8") as handle:
        handle.write(KNOWN_HEAD)
        for name, key, lemmas in rows:
            handle.write(" ".join([key, name, *sorted(lemma.crate() for lemma in lemmas)]) + "\n")
    print(f"{KNOWN}: {told(groups)}")


def told(groups):
    return f"{len(groups)} statements in more than one crate, {sum(map(len, groups.values()))} copies"


def libraries():
    """All crates on which each crate stands."""
    with open(os.path.join(TOP, "crates.txt"), encoding="utf-8") as handle:
        rows = [line.partition("#")[0].partition(":") for line in handle]
    below = {}
    for crate, colon, used in rows:
        if colon:
            direct = used.split()
            below[crate.split()[0]] = set(direct).union(*(below.get(library, set()) for library in direct))
    return below


def could_go(lemmas):
    """How many lines could go: those of all copies but the longest."""
    return sum(lemma.lines for lemma in lemmas) - max(lemma.lines for lemma in lemmas)


def show(statement, lemmas, below):
    """Prints a statement and its places, and which of them the others could use as things are."""
    print(f"{len(lemmas)} copies, {could_go(lemmas)} lines could go: {statement}")
    for lemma in lemmas:
        others = {other.crate() for other in lemmas} - {lemma.crate()}
        hint = ""
        if all(lemma.crate() in below.get(other, ()) for other in others):
            hint = ", in a library of the other crates" + ("" if lemma.is_public else ", but not public")
        print(f"    {lemma.path}:{lemma.line} {lemma.name}{hint}")


def check(groups):
    """Says which statements have more copies than are known, and whether there are none."""
    listed, below = known(), libraries()
    more = {statement: lemmas for statement, lemmas in groups.items() if len(lemmas) > listed.get(digest(statement), 0)}
    for statement, lemmas in sorted(more.items()):
        print(f"known: {listed.get(digest(statement), 0)}; ", end="")
        show(statement, lemmas, below)
    if more:
        print(f"More copies than are known: {len(more)}. Use the lemma of the lower crate, or move it to a crate on which both stand.")
        return False
    copies = {digest(statement): len(lemmas) for statement, lemmas in groups.items()}
    fewer = [key for key, count in listed.items() if copies.get(key, 0) < count]
    print(told(groups) + ", all of them known" + (f"; {len(fewer)} have fewer copies than {KNOWN} has: --write" if fewer else ""))
    return True


def main():
    parser = argparse.ArgumentParser(description=__doc__.split("\n")[0])
    modes = parser.add_mutually_exclusive_group()
    modes.add_argument("--list", action="store_true", help="print all repeated statements")
    modes.add_argument("--write", action="store_true", help=f"write {KNOWN} anew")
    arguments = parser.parse_args()
    groups = repeated()
    if arguments.write:
        write(groups)
    elif arguments.list:
        # Who reads only the first lines ends the program without a word.
        signal.signal(signal.SIGPIPE, signal.SIG_DFL)
        below = libraries()
        for statement, lemmas in sorted(groups.items(), key=lambda group: (-could_go(group[1]), group[0])):
            show(statement, lemmas, below)
        print(f"{told(groups)}, {sum(map(could_go, groups.values()))} lines could go")
    else:
        return 0 if check(groups) else 1
    return 0


if __name__ == "__main__":
    sys.exit(main())
