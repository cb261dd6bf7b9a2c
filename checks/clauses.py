#!/usr/bin/env python3
"""Compares the contracts of the two programs with that of the call which does their work.

  checks/clauses.py          prints each clause that is amiss; the exit status is 1 where there is one

`run` and `run_packaged` of the crate commands have the clauses of `run_in`, word for word, with their own classes in place of the
argument. The prover sees that each clause holds, and nobody would see that one is missing. These may be missing, since they say
nothing in these classes: `accepted_kept` of `run`, which keeps nothing, and `order` of `run_packaged`, which chooses no line number program.
"""
import os
import re
import sys

FOLDER = os.path.join(os.path.dirname(os.path.dirname(os.path.abspath(__file__))), "crates/commands/src")
# a call, its file, its classes, and the clauses that it may leave out
CALLS = (
    ("run", "running.rt", "every", {"accepted_kept"}),
    ("run_packaged", "for_packages.rt", "packaged", {"order"}),
)


def clauses_of(call, name):
    """The clauses of a call's contract by their names."""
    with open(os.path.join(FOLDER, name), encoding="utf-8") as handle:
        contract = re.search(rf"^pub fn {call}<.*?^\{{$", handle.read(), re.M | re.S).group()
    return dict(re.findall(r"^    ensures (\w+) \{ (.*) \}$", contract, re.M))


def faults_of(call, clauses, general, missing):
    """What is amiss in the clauses of a call, where those of the general one name its classes."""
    for name, text in general.items():
        if name not in clauses and name not in missing:
            yield f"{call} lacks the clause {name}"
        elif clauses.get(name, text) != text:
            yield f"{call} says something else in the clause {name}"
    for name in clauses:
        if name not in general:
            yield f"{call} has a clause {name}, and run_in has none"


def main():
    general = clauses_of("run_in", "running.rt")
    faults = []
    for call, name, classes, missing in CALLS:
        named = {clause: re.sub(r"\bclasses\b", classes, text) for clause, text in general.items()}
        faults += faults_of(call, clauses_of(call, name), named, missing)
    for fault in faults:
        print(fault)
    if not faults:
        print(f"the {len(general)} clauses of run_in are those of both programs")
    return 1 if faults else 0


if __name__ == "__main__":
    sys.exit(main())
