#!/usr/bin/env python3
"""Times the proved cores beside plain Rust that does the same work, and compares what they print.

  bench/measure.py [--program PROGRAM] [--megabytes N] [--steps N] [--pairs N] [--slots N] [--values N]
                   [--columns N] [--items N] [--runs N]

The proved program is built by `rt run` in crates/measure, and the plain ones from bench/plain by rustc. Each run is
timed whole, its start included; the least of the runs is taken, of wall time and of processor time each for itself.
One line is printed for each measure, and at last the load of the machine. Peak memory below some 14 MiB is that of
this script, which the system counts to a program that it starts. The exit status is 1 where two programs print
different things.
"""
import argparse
import os
import subprocess
import sys
import tempfile
import time

BENCH = os.path.dirname(os.path.abspath(__file__))
PROGRAM = os.path.join(os.path.dirname(BENCH), "crates", "measure", "out", "measure")
LONGEST_LIST = 16_384
RUSTC = ["rustc", "-O", "--edition", "2021", "-C", "target-cpu=x86-64-v2"]


def timed(command):
    """What a run prints, its seconds of wall time and of processor time, and its bytes of peak memory."""
    with tempfile.TemporaryFile() as out:
        start = time.monotonic()
        child = subprocess.Popen(command, stdout=out)
        _, status, usage = os.wait4(child.pid, 0)
        seconds = time.monotonic() - start
        child.returncode = os.waitstatus_to_exitcode(status)
        if child.returncode:
            sys.exit(f"{command[0]} ended with status {child.returncode}")
        out.seek(0)
        return out.read().decode(), seconds, usage.ru_utime + usage.ru_stime, usage.ru_maxrss * 1024


def least(command, runs):
    """The same of some runs: the least times and the greatest memory."""
    said, seconds, processor, memory = zip(*(timed(command) for _ in range(runs)))
    return said[0], min(seconds), min(processor), max(memory)


def build(name, folder):
    """Builds a plain program into a folder."""
    program = os.path.join(folder, name)
    subprocess.run(RUSTC + [os.path.join(BENCH, "plain", name + ".rs"), "-o", program], check=True)
    return program


def measure(program, plain, word, operands, nouns, runs):
    """Prints a line, and tells whether both programs print the same. That begins with a count of each noun."""
    said, seconds, processor, memory = least([program, word, *operands], runs)
    plain_said, plain_seconds, plain_processor, plain_memory = least([plain, *operands], runs)
    word = " ".join([word, *operands[:-1]])
    counts = said.split()[::2]
    rates = ", ".join(f"{int(count) / processor / 1e6:.2f} million {noun}" for count, noun in zip(counts, nouns))
    print(
        f"{word}: {said.strip()}: {seconds:.2f} s, plain {plain_seconds:.2f} s, {seconds / plain_seconds:.2f} times;"
        f" of the processor {processor:.2f} s, plain {plain_processor:.2f} s, {processor / plain_processor:.2f} times,"
        f" {rates} a second; peak memory {memory >> 20} MiB, plain {plain_memory >> 20} MiB",
        flush=True,
    )
    if said != plain_said:
        print(f"{word}: the plain program prints {plain_said.strip()}")
    return said == plain_said


def main():
    parser = argparse.ArgumentParser(description=__doc__, formatter_class=argparse.RawDescriptionHelpFormatter)
    parser.add_argument("--program", default=PROGRAM)
    parser.add_argument("--megabytes", type=int, default=100)
    parser.add_argument("--steps", type=int, default=3_000_000)
    parser.add_argument("--pairs", type=int, default=1000, help="programs of 201 rows, whose least pairs are sought")
    parser.add_argument("--slots", type=int, default=1 << 22)
    parser.add_argument("--values", type=int, default=2_000_000, help="values drawn, each of which is read 64 times")
    parser.add_argument("--columns", type=int, default=10_000_000, help="values of columns, summed in each form")
    parser.add_argument("--items", type=int, default=1_000_000, help="ranges, in lists of 1 to 50")
    parser.add_argument("--operations", type=int, default=10_000_000, help="operations of expressions, read and written")
    parser.add_argument("--runs", type=int, default=3)
    options = parser.parse_args()
    if not os.path.exists(options.program):
        sys.exit(f"{options.program} is missing: run `rt run` in crates/measure")
    with tempfile.TemporaryDirectory(dir=os.environ.get("TMPDIR")) as scratch:
        names = ("lines", "steps", "pairs", "layout", "values", "columns", "entries", "ranges", "expressions")
        lines, steps, pairs, layout, values, columns, entries, ranges, expressions = (build(name, scratch) for name in names)
        section = os.path.join(scratch, "section")
        units = os.path.join(scratch, "units")
        for script, file in (("make_lines.py", section), ("make_entries.py", units)):
            make = [sys.executable, os.path.join(BENCH, script), file, "--megabytes", str(options.megabytes)]
            subprocess.run(make, check=True)
        same = measure(options.program, lines, "lines", [section], ["rows"], options.runs)
        same &= measure(options.program, steps, "steps", [str(options.steps)], ["steps"], options.runs)
        same &= measure(options.program, pairs, "pairs", [str(options.pairs)], ["pairs"], options.runs)
        same &= measure(options.program, layout, "layout", [str(options.slots)], ["slots"], options.runs)
        same &= measure(options.program, values, "values", [str(options.values)], ["values", "bytes"], options.runs)
        same &= measure(options.program, columns, "columns", [str(options.columns)], ["values"], options.runs)
        same &= measure(options.program, entries, "entries", [units], ["entries", "values"], options.runs)
        count = [str(options.operations)]
        same &= measure(options.program, expressions, "expressions", count, ["operations", "bytes"], options.runs)
        for shape, items in (
            ("lists", options.items),
            ("indexed-lists", options.items),
            ("list", LONGEST_LIST),
            ("indexed-list", LONGEST_LIST),
        ):
            same &= measure(options.program, ranges, "ranges", [shape, str(items)], ["ranges"], options.runs)
    print(f"load average {os.getloadavg()[0]:.1f} on {os.cpu_count()} processors")
    return 0 if same else 1


if __name__ == "__main__":
    sys.exit(main())
