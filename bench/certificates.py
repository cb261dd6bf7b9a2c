#!/usr/bin/env python3
"""Runs the program on files, and prints how many bytes the certificate of each has beside those of OUT, as a table in Markdown.

  bench/certificates.py [--program PROGRAM] FILE ..

Of OUT the bytes of the whole file and of the five sections that are written anew are told, of the certificate those of all and of the
records of each kind, with how many records there are. A part is that of the certificate in the five sections. A certificate whose bytes
are no record file is told as broken; whether its records show what they should isn't looked at. The last line adds up all files; the exit
status is 1 where the program doesn't write one, or where a certificate is broken.
"""
import argparse
import os
import sys
import tempfile
from collections import Counter
from dataclasses import dataclass, field
from typing import List

from compare_dwz import SECTIONS, TOP, sizes_of
from record_files import LAYOUT, LINES, LIST, MAGIC, Broken, records
from shrinking import shrink

KINDS = ((LINES, "line programs"), (LIST, "lists"), (LAYOUT, "units"))


@dataclass
class Sizes:
    """The bytes of OUT and of its certificate, and of each kind of record how many there are and their bytes."""
    out: int = 0
    sections: int = 0
    certificate: int = 0
    counts: Counter = field(default_factory=Counter)
    bytes: Counter = field(default_factory=Counter)

    def add(self, other: "Sizes") -> None:
        self.out += other.out
        self.sections += other.sections
        self.certificate += other.certificate
        self.counts += other.counts
        self.bytes += other.bytes

    def row(self, name: str) -> str:
        columns = [name, f"{self.out:,}", f"{self.sections:,}", f"{self.certificate:,}"]
        columns.append(f"{100 * self.certificate / self.sections:.1f} %" if self.sections else "")
        for kind, _ in KINDS:
            columns += [f"{self.counts[kind]:,}", f"{self.bytes[kind]:,}"]
        return "| " + " | ".join(columns) + " |"


def sizes(out: str, certificate: str) -> Sizes:
    with open(certificate, "rb") as file:
        bytes_ = file.read()
    debug = sizes_of(out)
    found = Sizes(os.path.getsize(out), sum(debug[name] for name in SECTIONS), len(bytes_))
    for record in records(bytes_):
        found.counts[record.kind] += 1
        found.bytes[record.kind] += record.end - record.at
    if sum(found.bytes.values()) + len(MAGIC) != found.certificate:
        raise AssertionError("the records aren't all of the file")
    return found


def measure(program: str, files: List[str]) -> int:
    """Prints a row for each file and one for all. How many have none."""
    total, wrong = Sizes(), 0
    with tempfile.TemporaryDirectory() as folder:
        out, certificate = os.path.join(folder, "out"), os.path.join(folder, "cert")
        for path in files:
            name = os.path.basename(path)
            answer, words = shrink(program, path, out, certificate)
            try:
                found = sizes(out, certificate) if answer == "written" else None
            except Broken as broken:
                found, words = None, f"the certificate is broken at {broken}"
            if found is None:
                wrong += 1
                print(f"| {name} | {words} |" + " |" * (3 + 2 * len(KINDS)), flush=True)
                continue
            total.add(found)
            print(found.row(name), flush=True)
    print(total.row("all"))
    return wrong


def main() -> int:
    parser = argparse.ArgumentParser(description=__doc__, formatter_class=argparse.RawDescriptionHelpFormatter)
    parser.add_argument("--program", default=os.path.join(TOP, "crates/shrink_app/out/shrink_app"))
    parser.add_argument("files", nargs="+", metavar="FILE")
    options = parser.parse_args()
    print("| file | OUT | five sections | certificate | part |" + "".join(f" {name} | bytes |" for _, name in KINDS))
    print("|---|---:|---:|---:|---:|" + "---:|---:|" * len(KINDS))
    return 1 if measure(options.program, options.files) else 0


if __name__ == "__main__":
    sys.exit(main())
