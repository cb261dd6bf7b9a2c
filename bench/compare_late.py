#!/usr/bin/env python3
"""Compares what gdb and lldb show, before and after, of what they read late: breakpoints that are set when the program already runs, so
that the units with them are read after the program was moved to its place, and a core file that gdb wrote at the last stop.

  bench/compare_late.py [--program PROGRAM] [--debugger gdb|lldb-14|..].. [--breakpoints N] FILE ..

Each FILE is a position-independent executable that ends by itself without words and input. gdb is needed for each debugger: it finds the
functions that a run reaches, and writes the core files. At each stop the backtrace, the arguments and the locals are compared. The file
as it was runs twice, the second time as a copy, and what differs between these two runs (memory that nothing has set, addresses of the
stack) isn't compared. Each line of the answer tells of a file and a debugger; the exit status is 1 where one shows something else.
"""
import argparse
import os
import re
import shutil
import subprocess
import sys
import tempfile
from typing import List

import compare_gdb
from consumers import chosen, functions, reached
from shrinking import shrink

TOP = os.path.dirname(os.path.dirname(os.path.abspath(__file__)))
FRAME = re.compile(r" at \S+:\d+")
# what differs with each run or each copy of a file
NOISE = re.compile(r"^(\d+\t|\[|warning:|Core was generated|Using host|Temporary breakpoint|Breakpoint|Process \d+|\(lldb\)|\d+ in )")


def said(words: List[str], folder: str) -> List[str]:
    """What a command says, without the lines that tell of the run alone."""
    run = subprocess.run(words, cwd=folder, stdin=subprocess.DEVNULL, stdout=subprocess.PIPE, stderr=subprocess.STDOUT, text=True, errors="replace", timeout=300)
    told = re.sub(r"0x7f[0-9a-f]{10}\b|\b(uid|id) ?= ?\{0x[0-9a-f]+\}|\(pid \d+\)|tid = \d+|Thread 0x\w+|LWP \d+", "", run.stdout.replace(folder, ""))
    return [line for line in told.splitlines() if not NOISE.match(line)]


def gdb(folder: str, name: str, names: List[str]) -> List[List[str]]:
    """What gdb says with breakpoints set after the start, and then of the core file that it has written at the last stop."""
    at_stop = ["backtrace 12", "info args", "info locals", "info source"]
    script = ["set pagination off", "set width 0", "set confirm off", "set print address off", "set debuginfod enabled off", "set print frame-info location"]
    live = script + ["tbreak main", "run > /dev/null 2>&1 < /dev/null"] + [f"tbreak {point}" for point in names]
    for number, _ in enumerate(names):
        live += ["continue", *at_stop] + (["generate-core-file core"] if number == len(names) - 1 else [])
    core = script + ["backtrace 20", "info args", "info locals", "up", "info args", "info locals", "up", "info args", "info locals"]
    core += [f"info line {point}" for point in names]
    asked = []
    for words, commands in ((["./" + name], live), (["./" + name, "core"], core)):
        asked.append(said(["gdb", "-nx", "-batch", *(word for line in commands for word in ("-ex", line)), *words], folder))
    return asked


def lldb(tool: str, folder: str, name: str, names: List[str]) -> List[List[str]]:
    """The same of lldb; the core file is gdb's."""
    at_stop = ["bt 12", "frame variable"]
    live = ["breakpoint set -o true -n main", "process launch -i /dev/null -o /dev/null -e /dev/null"]
    live += [f"breakpoint set -o true -n {point}" for point in names]
    for _ in names:
        live += ["continue", *at_stop]
    core = ["bt 20", "frame variable", "up", "frame variable", "up", "frame variable"] + [f"image lookup -v -n {point}" for point in names]
    asked = []
    for words, commands in ((["./" + name], live), (["./" + name, "-c", "core"], core)):
        asked.append(said([tool, "--no-lldbinit", "--batch", *(word for line in commands for word in ("-o", line)), *words], folder))
    return asked


def compare(debugger: str, place: str, path: str, names: List[str]) -> bool:
    """Prints a line on a file and a debugger, and up to three lines that differ; whether all are the same."""
    name = os.path.basename(path)
    ask = gdb if debugger == "gdb" else lambda folder, name, names: lldb(debugger, folder, name, names)
    told = [ask(os.path.join(place, folder), name, names) for folder in ("old", "cop", "new")]
    cells, differences = [], []
    for part, kind in ((0, "live"), (1, "core")):
        before, again, after = (it[part] for it in told)
        steady = {number for number, line in enumerate(before) if len(before) != len(again) or line == again[number]}
        pairs = [(before[n] if n < len(before) else "", after[n] if n < len(after) else "") for n in range(max(len(before), len(after)))
                 if (n in steady or n >= len(before)) and before[n:n + 1] != after[n:n + 1]]
        cells.append(f"{kind}: {sum(map(bool, map(FRAME.search, before)))} and {sum(map(bool, map(FRAME.search, after)))} places with a line, "
                     f"{len(pairs)} of {len(before)} lines differ")
        differences += pairs
    print(f"{name}, {debugger}, {len(names)} breakpoints: {'; '.join(cells)}", flush=True)
    for one, other in differences[:6]:
        print(f"  {one!r} became {other!r}")
    return not differences


def main() -> None:
    parser = argparse.ArgumentParser(description=__doc__.split("\n")[0])
    parser.add_argument("--program", default=os.path.join(TOP, "crates/packages_app/out/packages_app"))
    parser.add_argument("--debugger", action="append", default=[])
    parser.add_argument("--breakpoints", type=int, default=12)
    parser.add_argument("files", nargs="+")
    options = parser.parse_args()
    all_same = True
    for path in options.files:
        name = os.path.basename(path)
        with tempfile.TemporaryDirectory() as place:
            for folder in ("old", "cop", "new"):
                os.mkdir(os.path.join(place, folder))
            for folder in ("old", "cop"):
                shutil.copy(path, os.path.join(place, folder))
            answer, why = shrink(options.program, path, os.path.join(place, "new", name))
            if answer != "written":
                sys.exit(f"{name}: {answer}: {why}")
            os.chmod(os.path.join(place, "new", name), 0o755)
            known = [it for _, it in functions(os.path.join(place, "old", name)) if it != "main"]
            found = compare_gdb.debug(os.path.join(place, "old"), name, [], chosen(known, 150), ["info symbol $pc"])
            names = chosen(reached(found, known), options.breakpoints)
            for debugger in options.debugger or ["gdb"]:
                all_same &= compare(debugger, place, path, names)
    sys.exit(0 if all_same else 1)


if __name__ == "__main__":
    main()
