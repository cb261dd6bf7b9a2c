#!/usr/bin/env python3
"""Writes an ELF file whose units name abbreviation tables that overlap: one table of N declarations, and for each of them a unit
whose table begins there and so has all later declarations too.

  bench/make_overlapping_tables.py FILE [--units N] [--used K] [--columns M | --padding]

Each unit has an entry for each of the last K declarations (1 if left out). A program that reads each table for itself takes time
and memory with the square of N: with 8,000 units 32 million declarations are read in a file of 160 KB.

With --columns the tables begin inside one declaration of M columns instead, two bytes from each other, and each unit has the one
entry whose declaration follows that. So each table has a declaration of its own, which no entry has, with the rest of the columns.

With --padding they begin inside one padded number 0 of N bytes, one byte from each other, and are all empty. Such a file is refused
as CodeMissing; read table by table, the number has N bytes for the first of them, and N times N for all.
"""
import argparse
import struct

from elf_files import elf_file, uleb


def sections(count, used):
    """The bodies of .debug_info and .debug_abbrev."""
    abbrevs, places = bytearray(), []
    for code in range(1, count + 1):
        places.append(len(abbrevs))
        abbrevs += uleb(code) + b"\x11\1\0\0"
    abbrevs += b"\0"
    # the last declarations are in all tables but the last ones
    units = []
    for first, place in enumerate(places, 1):
        codes = range(max(first, count + 1 - used), count + 1)
        chain = b"".join(map(uleb, codes))
        units.append(struct.pack("<HBBI", 5, 1, 8, place) + chain + bytes(len(codes)))
    return b"".join(struct.pack("<I", len(unit)) + unit for unit in units), bytes(abbrevs)


def sections_inside(count, columns):
    """The same for tables inside one declaration, which has the code 1, the tag 1, children, and the attribute 1 in the form 1."""
    if count > columns:
        raise SystemExit("there are to be at least as many columns as units")
    abbrevs = b"\1\1\1" + b"\1\1" * columns + b"\0\0" + b"\2\x11\0\0\0" + b"\0"
    return b"".join(struct.pack("<IHBBI", 9, 5, 1, 8, 2 * unit) + b"\2" for unit in range(count)), abbrevs


def sections_of_padding(count):
    """The same for tables inside a padded number 0."""
    return b"".join(struct.pack("<IHBBI", 9, 5, 1, 8, unit) + b"\1" for unit in range(count)), b"\x80" * (count - 1) + b"\0"


def main():
    parser = argparse.ArgumentParser(description=__doc__, formatter_class=argparse.RawDescriptionHelpFormatter)
    parser.add_argument("file")
    parser.add_argument("--units", type=int, default=4000)
    parser.add_argument("--used", type=int, default=1)
    kinds = parser.add_mutually_exclusive_group()
    kinds.add_argument("--columns", type=int)
    kinds.add_argument("--padding", action="store_true")
    options = parser.parse_args()
    if options.columns is not None:
        info, abbrevs = sections_inside(options.units, options.columns)
    elif options.padding:
        info, abbrevs = sections_of_padding(options.units)
    else:
        info, abbrevs = sections(options.units, options.used)
    with open(options.file, "wb") as file:
        file.write(elf_file([(b".debug_info", info), (b".debug_abbrev", abbrevs)]))


if __name__ == "__main__":
    main()
