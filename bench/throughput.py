#!/usr/bin/env python3
"""Measures reading and writing a large file: wall time beside `cp`, and peak memory beside the file's size.

  bench/throughput.py [--program PROGRAM] [--megabytes N] [--runs N]

The file is an ELF-64 file with one section of N megabytes that is no debug section, so that its certificate has no
records. Each run is timed whole, the program's start included; the least of the runs is taken.
"""
import argparse
import os
import struct
import subprocess
import sys
import tempfile
import time

TOP = os.path.dirname(os.path.dirname(os.path.abspath(__file__)))


def section_header(name, kind, at, size):
    return struct.pack("<IIQQQQIIQQ", name, kind, 0, 0, at, size, 0, 0, 1, 0)


def write_sample(path, megabytes):
    """Writes an ELF-64 file with the sections .big and .shstrtab."""
    block = bytes(range(256)) * 4096
    size = megabytes * len(block)
    names = b"\0.big\0.shstrtab\0"
    at = 64 + size
    pad = -(at + len(names)) % 8
    headers = bytes(64) + section_header(1, 1, 64, size) + section_header(6, 3, at, len(names))
    head = struct.pack("<16sHHIQQQIHHHHHH", b"\x7fELF\x02\x01\x01", 2, 62, 1, 0, 0, at + len(names) + pad, 0, 64, 0, 0, 64, 3, 2)
    with open(path, "wb") as handle:
        handle.write(head)
        for _ in range(megabytes):
            handle.write(block)
        handle.write(names + bytes(pad) + headers)


def timed(command):
    """Seconds of wall time and bytes of peak memory of one run."""
    start = time.monotonic()
    child = os.spawnvp(os.P_NOWAIT, command[0], command)
    _, status, usage = os.wait4(child, 0)
    if status:
        sys.exit(f"{command[0]} ended with status {status}")
    return time.monotonic() - start, usage.ru_maxrss * 1024


def main():
    parser = argparse.ArgumentParser(description=__doc__, formatter_class=argparse.RawDescriptionHelpFormatter)
    parser.add_argument("--program", default=os.path.join(TOP, "mikadocherry"))
    parser.add_argument("--megabytes", type=int, default=500)
    parser.add_argument("--runs", type=int, default=3)
    options = parser.parse_args()
    with tempfile.TemporaryDirectory(dir=os.environ.get("TMPDIR")) as scratch:
        source, out = os.path.join(scratch, "in"), os.path.join(scratch, "out")
        write_sample(source, options.megabytes)
        size = os.path.getsize(source)
        copies = [timed(["cp", source, out])[0] for _ in range(options.runs)]
        runs = [timed([options.program, "shrink", source, out, os.devnull]) for _ in range(options.runs)]
    seconds, memory = min(run[0] for run in runs), max(run[1] for run in runs)
    print(f"{size} bytes: cp {min(copies):.3f} s, shrink {seconds:.3f} s, {seconds / min(copies):.1f} times cp")
    print(f"peak memory {memory} bytes, {memory / size:.2f} times the file")


if __name__ == "__main__":
    main()
