#!/usr/bin/env python3
"""Runs the program on every ELF file below some folders and compares what it wrote with what it read.

  bench/compare_real_files.py [--program PROGRAM] [FOLDER ..]      default folders: /usr/bin /usr/lib

For each file that the program accepts, `readelf` has to show the same file header (but for the place of the
section headers), the same segments, and the same sections (but for the offset of those that may move); the bytes
of each segment and of each section are compared too. A refusal is counted by its kind. The last lines are the
counts; the exit status is 1 where something differs.
"""
import argparse
import collections
import os
import re
import subprocess
import sys
import tempfile

from shrinking import shrink

TOP = os.path.dirname(os.path.dirname(os.path.abspath(__file__)))
SECTION = re.compile(
    r"^\s*\[\s*(\d+)\]\s(.*?)\s+([A-Z_0-9+<>: a-f]+?)\s+([0-9a-f]{16}) ([0-9a-f]{6,}) ([0-9a-f]{6,}) ([0-9a-f]{2,})\s+(\S*)\s+(\d+)\s+(\d+)\s+(\d+)$"
)


def elf_files(folders):
    for folder in folders:
        for path, _, names in os.walk(folder):
            for name in sorted(names):
                file = os.path.join(path, name)
                try:
                    if not os.path.islink(file) and os.path.isfile(file):
                        with open(file, "rb") as handle:
                            if handle.read(4) == b"\x7fELF":
                                yield file
                except OSError:
                    pass


def readelf(option, file):
    """The lines that readelf prints, without those that name the file or the place of the section headers."""
    run = subprocess.run(["readelf", "-W", option, file], capture_output=True, text=True, errors="replace")
    dropped = ("Start of section headers", "starting at offset")
    return [line for line in run.stdout.splitlines() if not any(word in line for word in dropped)]


def sections(file):
    """(number, name, kind, address, offset, size, other fields) of each section."""
    found = []
    for line in readelf("-S", file):
        match = SECTION.match(line)
        if match:
            number, name, kind, address, offset, size, *rest = match.groups()
            found.append((int(number), name, kind, address, int(offset, 16), int(size, 16), tuple(rest)))
    return found


def differences(old, new):
    """What readelf and the bytes show to differ, as a list of words."""
    found = []
    if readelf("-h", old) != readelf("-h", new):
        found.append("file header")
    if readelf("-l", old) != readelf("-l", new):
        found.append("segments")
    before, after = sections(old), sections(new)
    if len(before) != len(after):
        found.append("number of sections")
    with open(old, "rb") as handle:
        old_bytes = handle.read()
    with open(new, "rb") as handle:
        new_bytes = handle.read()
    for a, b in zip(before, after):
        if a[:4] + a[5:] != b[:4] + b[5:]:
            found.append(f"header of section {a[0]}")
        if "A" in a[6][1] and a[4] != b[4]:
            found.append(f"offset of the loaded section {a[0]}")
        if a[2] not in ("NULL", "NOBITS") and old_bytes[a[4] : a[4] + a[5]] != new_bytes[b[4] : b[4] + b[5]]:
            found.append(f"body of section {a[0]}")
    for line in readelf("-l", old):
        fields = line.split()
        if len(fields) > 5 and fields[1].startswith("0x") and fields[4].startswith("0x"):
            at, size = int(fields[1], 16), int(fields[4], 16)
            segment = bytearray(old_bytes[at : at + size])
            other = bytearray(new_bytes[at : at + size])
            # the place of the section headers, bytes 40 to 47 of the file, may differ
            for place in range(40, 48):
                if at <= place < at + size and place - at < len(other):
                    segment[place - at] = other[place - at]
            if segment != other:
                found.append(f"bytes of the segment at {at}")
    return found


def main():
    parser = argparse.ArgumentParser(description=__doc__, formatter_class=argparse.RawDescriptionHelpFormatter)
    parser.add_argument("--program", default=os.path.join(TOP, "mikadocherry"))
    parser.add_argument("folders", nargs="*", default=["/usr/bin", "/usr/lib"])
    options = parser.parse_args()
    tried = done = wrong = 0
    refused = collections.Counter()
    with tempfile.TemporaryDirectory() as scratch:
        out = os.path.join(scratch, "out")
        for file in elf_files(options.folders):
            tried += 1
            answer, words = shrink(options.program, file, out)
            if answer == "refused":
                refused[words.split()[1]] += 1
            elif answer == "written":
                done += 1
                found = differences(file, out)
                if found:
                    wrong += 1
                    print(f"{file}: {', '.join(found[:5])}")
            else:
                wrong += 1
                print(f"{file}: {words}")
            if os.path.exists(out):
                os.remove(out)
    print(f"{tried} ELF files, {done} written, {sum(refused.values())} refused, {wrong} differ")
    for kind, count in refused.most_common():
        print(f"  refused {kind}: {count}")
    return 1 if wrong else 0


if __name__ == "__main__":
    sys.exit(main())
