#!/usr/bin/env python3
"""Writes .debug_info and .debug_abbrev for the measures: units of about a megabyte, as a compiler makes them.

  bench/make_entries.py FILE [--megabytes N]

FILE gets the bytes of .debug_info, and FILE.abbrev those of the one table of all units. The entries are drawn by a fixed
generator, so the same words give the same bytes. All units have the same bytes, and 100 megabytes of them keep the limits
of 2^24 entries and 2^26 values.
"""
import argparse
import random
import struct

from elf_files import uleb

STRP, DATA1, DATA2, DATA4, DATA8, ADDR = 0x0E, 0x0B, 0x05, 0x06, 0x07, 0x01
REF4, EXPR, OFFSET, PRESENT, CONSTANT, TEXT, SDATA = 0x13, 0x18, 0x17, 0x19, 0x21, 0x08, 0x0D

# The declarations by their codes: tag, whether there are children, and names with forms. DW_FORM_implicit_const is 1.
UNIT, FUNCTION, PARAMETER, VARIABLE, BLOCK, STRUCTURE, MEMBER, POINTER, BASE, CALL, INLINED = range(1, 12)
DECLARATIONS = {
    UNIT: (0x11, 1, [(0x25, STRP), (0x13, DATA1), (0x03, STRP), (0x11, ADDR), (0x12, DATA8), (0x10, OFFSET)]),
    FUNCTION: (0x2E, 1, [(0x3F, PRESENT), (0x03, STRP), (0x3A, DATA1), (0x3B, DATA2), (0x49, REF4), (0x11, ADDR), (0x12, DATA8), (0x40, EXPR)]),
    PARAMETER: (0x05, 0, [(0x03, STRP), (0x3A, CONSTANT), (0x3B, DATA2), (0x49, REF4), (0x02, OFFSET)]),
    VARIABLE: (0x34, 0, [(0x03, TEXT), (0x3A, CONSTANT), (0x3B, DATA2), (0x49, REF4), (0x02, EXPR)]),
    BLOCK: (0x0B, 1, [(0x11, ADDR), (0x12, DATA8)]),
    STRUCTURE: (0x13, 1, [(0x03, STRP), (0x0B, DATA1), (0x3A, DATA1), (0x3B, DATA1)]),
    MEMBER: (0x0D, 0, [(0x03, STRP), (0x3A, CONSTANT), (0x3B, DATA1), (0x49, REF4), (0x38, DATA1)]),
    POINTER: (0x0F, 0, [(0x0B, CONSTANT), (0x49, REF4)]),
    BASE: (0x24, 0, [(0x0B, DATA1), (0x3E, DATA1), (0x03, STRP)]),
    CALL: (0x48, 1, [(0x7D, ADDR), (0x7F, REF4)]),
    INLINED: (0x49, 0, [(0x02, EXPR), (0x7E, EXPR)]),
}


def table(declarations):
    """The bytes of an abbreviation table."""
    out = bytearray()
    for code, (tag, children, columns) in declarations.items():
        out += uleb(code) + uleb(tag) + bytes([children])
        for name, form in columns:
            out += uleb(name) + uleb(form) + (b"\1" if form == CONSTANT else b"")
        out += b"\0\0"
    return bytes(out) + b"\0"


def value(rng, form):
    sizes = {STRP: 4, DATA1: 1, DATA2: 2, DATA4: 4, DATA8: 8, ADDR: 8, REF4: 4, OFFSET: 4, PRESENT: 0, CONSTANT: 0}
    if form in sizes:
        return rng.randbytes(sizes[form])
    if form == TEXT:
        return bytes(rng.randrange(97, 123) for _ in range(rng.randrange(1, 10))) + b"\0"
    count = rng.randrange(1, 5)
    return bytes([count]) + rng.randbytes(count)


def entry(rng, code):
    return uleb(code) + b"".join(value(rng, form) for _, form in DECLARATIONS[code][2])


def siblings(rng, codes, depth):
    """Some entries with their children, and the code 0 that ends them."""
    out = bytearray()
    for _ in range(rng.randrange(1, 7)):
        code = rng.choice(codes)
        out += entry(rng, code)
        if DECLARATIONS[code][1]:
            inner = {FUNCTION: [PARAMETER, VARIABLE, BLOCK, CALL], STRUCTURE: [MEMBER], BLOCK: [VARIABLE, CALL, BLOCK], CALL: [INLINED]}[code]
            out += siblings(rng, inner if depth < 6 else [VARIABLE], depth + 1)
    return bytes(out + b"\0")


def unit(rng, size):
    out = bytearray(entry(rng, UNIT))
    while len(out) < size:
        out += siblings(rng, [FUNCTION, FUNCTION, STRUCTURE, POINTER, BASE], 1)[:-1]
    out += b"\0"
    return struct.pack("<IHBBI", len(out) + 8, 5, 1, 8, 0) + bytes(out)


def main():
    parser = argparse.ArgumentParser(description=__doc__, formatter_class=argparse.RawDescriptionHelpFormatter)
    parser.add_argument("file")
    parser.add_argument("--megabytes", type=int, default=100)
    options = parser.parse_args()
    one = unit(random.Random(1), 1 << 20)
    with open(options.file, "wb") as out:
        for _ in range(options.megabytes):
            out.write(one)
    with open(options.file + ".abbrev", "wb") as out:
        out.write(table(DECLARATIONS))


if __name__ == "__main__":
    main()
