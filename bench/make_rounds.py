#!/usr/bin/env python3
"""Makes an ELF file with a unit whose layout takes a round for each of its references: each that grows moves the target of the next one
past the numbers that fit its bytes.

  bench/make_rounds.py [--bytes 2|3] OUT

With 2 (the default) the unit has 4,093 references whose numbers pass 2^14 one after the other, with 3 it has 419,425 that pass 2^21.
The references stand first, in DW_FORM_ref4, and then entries of one byte up to where they pass that number: the first reference names
the last of these, the second the one before it, and so on.
"""
import argparse
import struct

from elf_files import elf_file

HEADER_SIZE = 12

# A root with children; an entry with a reference in DW_FORM_ref4; an entry with nothing.
ABBREVS = bytes([1, 0x11, 1, 0, 0, 2, 0x34, 0, 0x49, 0x13, 0, 0, 3, 0x34, 0, 0, 0, 0])


def unit(size):
    """The unit, in which the last entry stands at the first place that references of so many bytes can't name, as long as all have these."""
    passed = 1 << 7 * size
    count = (passed - HEADER_SIZE) // (size + 2)
    others = passed - HEADER_SIZE - count * (size + 2)
    last = HEADER_SIZE + 5 * count + others + count
    references = b"".join(b"\2" + struct.pack("<I", last - i) for i in range(count))
    body = b"\1" + references + b"\3" * (others + count) + b"\0"
    return struct.pack("<IHBBI", HEADER_SIZE - 4 + len(body), 5, 1, 8, 0) + body


def main():
    words = argparse.ArgumentParser(description=__doc__, formatter_class=argparse.RawDescriptionHelpFormatter)
    words.add_argument("--bytes", type=int, choices=(2, 3), default=2)
    words.add_argument("out")
    given = words.parse_args()
    with open(given.out, "wb") as out:
        out.write(elf_file([(b".debug_info", unit(given.bytes)), (b".debug_abbrev", ABBREVS)]))


if __name__ == "__main__":
    main()
