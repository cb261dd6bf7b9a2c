#!/usr/bin/env python3
"""Writes an ELF file with many units for the measures: entries as a compiler makes them, with references inside the unit and into
others, and an empty line number program for each unit.

  bench/make_units.py FILE [--megabytes N] [--units N] [--tables N]

Defaults: 100 megabytes of .debug_info in 2,000 units by 20 abbreviation tables. The entries are drawn by a fixed generator, so the
same words give the same bytes; all units have the same entries. The file keeps the limits and holds nothing that the program
doesn't rewrite yet.
"""
import argparse
import random
import struct

from elf_files import elf_file, uleb
from make_entries import DECLARATIONS as OF_ENTRIES
from make_entries import BASE, BLOCK, CONSTANT, DATA1, EXPR, FUNCTION, MEMBER, PARAMETER, POINTER, REF4, STRP, STRUCTURE, TEXT, UNIT, VARIABLE
from make_entries import ADDR, DATA2, DATA8, PRESENT, table

REFADDR = 0x10
IMPORT = 10
# Those of the measures of entries, with nothing that refers to lists.
DECLARATIONS = {
    **{code: OF_ENTRIES[code] for code in range(UNIT, IMPORT)},
    PARAMETER: (0x05, 0, [(0x03, STRP), (0x3A, CONSTANT), (0x3B, DATA2), (0x49, REF4), (0x02, EXPR)]),
    IMPORT: (0x3A, 0, [(0x3A, DATA1), (0x18, REFADDR)]),
}
INSIDE = {FUNCTION: [PARAMETER, VARIABLE, BLOCK], STRUCTURE: [MEMBER], BLOCK: [VARIABLE, BLOCK]}
# a header without opcodes, with line_base -5, line_range 14 and opcode_base 13, and two files
TABLES = b"\1\1\x08\1/\0\1\1\x08\2a\0b\0"
PROGRAM = struct.pack("<IHBBI", 26 + len(TABLES), 5, 8, 0, 18 + len(TABLES)) + bytes.fromhex("010101fb0e0d000101010100000001000001") + TABLES


class Unit:
    """The bytes of a unit, and where its references stand."""

    def __init__(self, rng):
        self.rng, self.out, self.entries, self.local, self.outer, self.lines = rng, bytearray(12), [], [], [], 0

    def value(self, name, form):
        if name == 0x3A and form == DATA1:
            self.out += b"\1"
            return
        sizes = {STRP: 4, DATA1: 1, DATA2: 2, DATA8: 8, ADDR: 8, PRESENT: 0, CONSTANT: 0}
        if form in sizes:
            self.out += self.rng.randbytes(sizes[form])
        elif form == TEXT:
            self.out += bytes(self.rng.randrange(97, 123) for _ in range(self.rng.randrange(1, 10))) + b"\0"
        elif form == EXPR:
            self.out += bytes([2, 0x91, self.rng.randrange(64, 128)])
        else:
            if form == REF4:
                self.local.append(len(self.out))
            elif form == REFADDR:
                self.outer.append(len(self.out))
            else:
                self.lines = len(self.out)
            self.out += bytes(4)

    def entry(self, code):
        self.entries.append(len(self.out))
        self.out += uleb(code)
        for name, form in DECLARATIONS[code][2]:
            self.value(name, form)

    def siblings(self, codes, depth):
        for _ in range(self.rng.randrange(1, 7)):
            code = self.rng.choice(codes)
            self.entry(code)
            if DECLARATIONS[code][1]:
                self.siblings(INSIDE[code] if depth < 6 else [VARIABLE], depth + 1)
                self.out += b"\0"

    def fill(self, size):
        self.entry(UNIT)
        while len(self.out) < size:
            self.siblings([FUNCTION, FUNCTION, STRUCTURE, POINTER, BASE, IMPORT], 1)
        self.out += b"\0"
        for at in self.local:
            struct.pack_into("<I", self.out, at, self.rng.choice(self.entries))
        return self


def main():
    parser = argparse.ArgumentParser(description=__doc__, formatter_class=argparse.RawDescriptionHelpFormatter)
    parser.add_argument("file")
    parser.add_argument("--megabytes", type=float, default=100)
    parser.add_argument("--units", type=int, default=2000)
    parser.add_argument("--tables", type=int, default=20)
    options = parser.parse_args()
    one = Unit(random.Random(1)).fill(int(options.megabytes * 1_000_000 / options.units) - 40)
    size, abbrevs = len(one.out), table(DECLARATIONS)
    info = bytearray()
    for i in range(options.units):
        struct.pack_into("<IHBBI", one.out, 0, size - 4, 5, 1, 8, i % options.tables * len(abbrevs))
        struct.pack_into("<I", one.out, one.lines, i * len(PROGRAM))
        other = (i + 1) % options.units * size
        for k, at in enumerate(one.outer):
            struct.pack_into("<I", one.out, at, other + one.entries[k % len(one.entries)])
        info += one.out
    with open(options.file, "wb") as out:
        out.write(elf_file([(b".debug_info", info), (b".debug_abbrev", abbrevs * options.tables), (b".debug_line", PROGRAM * options.units)]))


if __name__ == "__main__":
    main()
