#!/usr/bin/env python3
"""Runs programs under gdb before and after their debug information was written anew, and compares the backtrace, the arguments and the
locals at breakpoints.

  bench/compare_gdb.py [--program PROGRAM] [--breakpoints N] FILE ARGUMENT ..

FILE is an executable with debug information and runs with the arguments. N of its functions (20), evenly chosen among those that a run
reaches, get a breakpoint each, and gdb stops at the first call of each. The last line counts the stops; the exit status is 1 where one
differs. The file as it was is run twice, the second time as a
copy, and what differs between these two runs (memory that nothing has set) isn't compared. gdb 13 finds no line numbers of some units of a position-independent program that was written anew (README says why), so a
line is compared only where gdb shows one after.
"""
import argparse
import os
import re
import shutil
import subprocess
import sys
import tempfile

from shrinking import shrink

TOP = os.path.dirname(os.path.dirname(os.path.abspath(__file__)))
STOP = "=== stop "
LINE = re.compile(r" at \S+:\d+$| from \S+$")
# functions that a compiler adds to each program
ADDED = {"deregister_tm_clones", "register_tm_clones", "frame_dummy"}
# what a debugger says besides: threads, source lines, its own notes
NOISE = re.compile(r"^(\d+\t|\[|warning:|Temporary breakpoint \d+ at|Using host|\d+ in )")


def functions_of(path):
    """The functions of a file that have debug information, as gdb names them, each by its first address."""
    run = subprocess.run(["nm", "--defined-only", path], capture_output=True, text=True)
    found = [line.split() for line in run.stdout.splitlines()]
    return sorted({int(f[0], 16): f[2] for f in found if len(f) == 3 and f[1] in "tT" and f[2][0] != "_" and "." not in f[2] and f[2] not in ADDED}.items())


def debug(folder, name, arguments, points, commands, seconds=300):
    """What gdb says that runs a file of a folder with these breakpoints and commands at each stop."""
    script = ["set pagination off", "set width 0", "set confirm off", "set print frame-info location", "set debuginfod enabled off", "set print address off"]
    script += [f"tbreak *{point}" if isinstance(point, int) else f"tbreak {point}" for point in points]
    script += ["run " + " ".join(arguments) + " > /dev/null 2>&1 < /dev/null"]
    for number in range(len(points)):
        script += [f"echo \\n{STOP}{number}\\n", *commands, "continue"]
    words = ["gdb", "-nx", "-batch", *(word for line in script for word in ("-ex", line)), os.path.join(".", name)]
    run = subprocess.run(words, cwd=folder, capture_output=True, text=True, errors="replace", timeout=seconds)
    return run.stdout


def stops(said):
    return [[line for line in stop.splitlines()[1:] if not NOISE.match(line)] for stop in said.split(STOP)[1:]]


def reached(folder, name, arguments, count):
    """Names of functions that a run reaches, evenly chosen."""
    names = [name for _, name in functions_of(os.path.join(folder, name))]
    step = max(1, len(names) // (40 * count))
    said = debug(folder, name, arguments, names[::step], ["info symbol $pc"])
    found = re.findall(r"^(\S+)(?: \+ \d+)? in section (?!.* of /(?:usr/)?lib)", said, re.M)
    step = max(1, len(found) // count)
    return found[::step][:count]


def same_line(before, after):
    """Whether gdb shows the same, or the same without a line number."""
    return before == after or LINE.sub("", before) == after


def main():
    parser = argparse.ArgumentParser(description=__doc__.split("\n")[0])
    parser.add_argument("--program", default=os.path.join(TOP, "crates/shrink_app/out/shrink_app"))
    parser.add_argument("--breakpoints", type=int, default=20)
    parser.add_argument("file")
    parser.add_argument("arguments", nargs=argparse.REMAINDER)
    options = parser.parse_args()
    name = os.path.basename(options.file)
    with tempfile.TemporaryDirectory() as folder:
        old, new, copy = (os.path.join(folder, place) for place in ("old", "new", "cop"))
        for place in (old, new, copy):
            os.mkdir(place)
        for place in (old, copy):
            shutil.copy(options.file, place)
        answer, why = shrink(options.program, os.path.join(old, name), os.path.join(new, name))
        if answer != "written":
            sys.exit(f"{name}: {answer}: {why}")
        os.chmod(os.path.join(new, name), 0o755)
        points = reached(old, name, options.arguments, options.breakpoints)
        commands = ["backtrace 12", "info args", "info locals"]
        before, again, after = (stops(debug(place, name, options.arguments, points, commands)) for place in (old, copy, new))
        differ = 0
        for number, (a, b, c) in enumerate(zip(before, again, after)):
            lines = [(x, z) for x, y, z in zip(a, b, c) if x == y]
            if len(a) != len(c) or not all(same_line(*pair) for pair in lines):
                differ += 1
                shown = next((pair for pair in lines if not same_line(*pair)), (a[-1:], c[-1:]))
                print(f"{name}: stop {number} at {points[number]}: {shown[0]!r} became {shown[1]!r}")
        differ += abs(len(before) - len(after))
        print(f"{name}: {len(before)} stops, {differ} differ")
        sys.exit(1 if differ or not before else 0)


if __name__ == "__main__":
    main()
