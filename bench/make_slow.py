#!/usr/bin/env python3
"""Makes ELF files that take more time or memory than their size, of the kinds that docs/LIMITS.md names and no other script makes.

  bench/make_slow.py constants|contexts|falling|sections FILE [--count N]

constants: N units (2,000), each with one entry whose declaration has 4,000 columns of DW_FORM_implicit_const. Their tables begin at places of
their own and end in that declaration, which is written for each.
contexts: N units (4,000) with addresses of their own that name one range list of 40,000 entries.
falling: a line number program of N rows (60,000). Most have one of 80 line distances, so that its bytes fall from line_range 23 to line_range
80; each fifth has an address distance of its own, so that no line_range is left early.
sections: N sections (4,000) that hold the same quarter of a megabyte.
"""
import argparse
import struct

from elf_files import HEADER_SIZE, Section, aligned, elf_file, names_of, placed, sleb, uleb
from make_lines import contribution

COLUMNS, ENTRIES, LINES, BODY = 4000, 40_000, 80, 1 << 18
UNIT_HEAD = 12


def unit(table, entry):
    """A unit with one entry, given behind its code."""
    body = struct.pack("<HBBI", 5, 1, 8, table) + entry
    return struct.pack("<I", len(body)) + body


def constants(count):
    abbrevs, places = bytearray(), []
    for code in range(2, count + 2):
        places.append(len(abbrevs))
        abbrevs += uleb(code) + b"\x34\0\0\0"
    columns = b"".join(uleb(0x2000 + i) + b"\x21\1" for i in range(COLUMNS))
    abbrevs += b"\1\x11\0" + columns + b"\0\0\0"
    info = b"".join(unit(place, b"\1") for place in places)
    return elf_file([(b".debug_info", info), (b".debug_abbrev", bytes(abbrevs))])


def contexts(count):
    abbrevs = b"\1\x11\0\x11\1\x55\x17\0\0\0"
    info = b"".join(unit(0, b"\1" + struct.pack("<QI", 4096 * i, UNIT_HEAD)) for i in range(count))
    entries = b"".join(b"\4" + uleb(i % 64) + uleb(i % 64 + 1) for i in range(ENTRIES)) + b"\0"
    lists = struct.pack("<IHBBI", 8 + len(entries), 5, 8, 0, 0) + entries
    return elf_file([(b".debug_info", info), (b".debug_abbrev", abbrevs), (b".debug_rnglists", lists)])


def falling(count):
    rows = bytearray()
    for i in range(count):
        if i % 5 == 4:
            rows += b"\2" + uleb(1_000_000 + i) + b"\1"
        else:
            rows += b"\2\2\3" + sleb((i - i // 5) % LINES) + b"\1"
    return elf_file([(b".debug_line", contribution(bytes(rows) + b"\0\1\1"))])


def sections(count):
    same = [Section(b".comment", HEADER_SIZE, bytes(BODY))] * count
    names_at = HEADER_SIZE + BODY
    return placed(same, names_at, aligned(names_at + len(names_of(section.name for section in same)) + len(b".shstrtab"), 8))


KINDS = {"constants": (constants, 2000), "contexts": (contexts, 4000), "falling": (falling, 60_000), "sections": (sections, 4000)}


def main():
    parser = argparse.ArgumentParser(description=__doc__.split("\n")[0])
    parser.add_argument("kind", choices=KINDS)
    parser.add_argument("file")
    parser.add_argument("--count", type=int)
    arguments = parser.parse_args()
    make, usual = KINDS[arguments.kind]
    with open(arguments.file, "wb") as file:
        file.write(make(arguments.count or usual))


if __name__ == "__main__":
    main()
