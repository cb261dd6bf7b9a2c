#!/usr/bin/env python3
"""Writes an ELF file with many range lists for the measures.

  bench/make_ranges.py FILE [--items N] [--longest N] [--table N] [--lists N] [--named N] [--random] [--even]
  bench/make_ranges.py FILE --ends N

One unit, with an entry for each list. Defaults: 1,000,000 items in lists of 1 to 50, without an address table, in order of address.
--lists N gives N lists of --longest items each, and --named N gives each list N entries that name it. --table N gives the unit an address table with the starts of N functions, of which
some are items' starts. --even gives items that are functions of the table, evenly spaced and in order: for each item many bases save
as many bytes, so that the search for the shortest list has the most to keep. --random draws the items of a list in any order. The lists are written as a compiler writes them: a base
address and offsets, or indexes where there is a table. --ends N gives one list of N items, and N lists that are its ends: values
name each of its entries, so that the file holds each entry as often as lists reach over it. The same words give the same bytes.
"""
import argparse
import random
import struct

from elf_files import elf_file, uleb

BASE_ADDRESS, OFFSET_PAIR, STARTX_LENGTH, BASE_ADDRESSX = 5, 4, 3, 1


def lengths(rng, arguments):
    if arguments.lists:
        return [arguments.longest] * arguments.lists
    counts, left = [], arguments.items
    while left:
        counts.append(min(left, rng.randrange(1, arguments.longest + 1)))
        left -= counts[-1]
    return counts


def even_bytes(count, functions):
    """A list of functions of the table, in order."""
    out = bytearray()
    for i in range(count):
        out += bytes([STARTX_LENGTH]) + uleb(i % len(functions)) + uleb(48)
    return bytes(out) + b"\0"


def list_bytes(rng, start, count, functions, shuffled):
    """A list of so many items from an address on, and the address past the last."""
    items = []
    for _ in range(count):
        start += rng.randrange(0, 4096)
        length = rng.randrange(1, 2048)
        items.append((start, start + length))
        start += length
    if shuffled:
        rng.shuffle(items)
    out = bytearray()
    if functions:
        for first, end in items:
            index = rng.randrange(len(functions))
            out += bytes([STARTX_LENGTH]) + uleb(index) + uleb(end - first)
    else:
        low = min(first for first, _ in items)
        out += bytes([BASE_ADDRESS]) + struct.pack("<Q", low)
        for first, end in items:
            out += bytes([OFFSET_PAIR]) + uleb(first - low) + uleb(end - low)
    return bytes(out) + b"\0", start


def main():
    parser = argparse.ArgumentParser(description=__doc__.split("\n")[0])
    parser.add_argument("file")
    parser.add_argument("--items", type=int, default=1_000_000)
    parser.add_argument("--longest", type=int, default=50)
    parser.add_argument("--lists", type=int, default=0)
    parser.add_argument("--named", type=int, default=1)
    parser.add_argument("--table", type=int, default=0)
    parser.add_argument("--random", action="store_true")
    parser.add_argument("--even", action="store_true")
    parser.add_argument("--ends", type=int, default=0)
    arguments = parser.parse_args()
    rng = random.Random(7)
    functions = [0x400000 + 64 * i for i in range(arguments.table)]
    section, places, address = bytearray(12), [], 0x400000
    for i in range(arguments.ends):
        places.append(len(section))
        section += bytes([OFFSET_PAIR]) + uleb(2 * i) + uleb(2 * i + 1)
    if arguments.ends:
        section += b"\0"
    for count in [] if arguments.ends else lengths(rng, arguments):
        places.append(len(section))
        if arguments.even:
            section += even_bytes(count, functions)
            continue
        one, address = list_bytes(rng, address, count, functions, arguments.random)
        section += one
    section[:12] = struct.pack("<IHBBI", len(section) - 4, 5, 8, 0, 0)
    addresses = struct.pack("<IHBB", 4 + 8 * len(functions), 5, 8, 0) + b"".join(struct.pack("<Q", f) for f in functions)
    # DW_TAG_compile_unit with DW_AT_addr_base where there is a table, and DW_TAG_lexical_block with DW_AT_ranges
    root = [(0x73, 0x17)] if functions else []
    pairs = b"".join(uleb(name) + uleb(form) for name, form in root)
    abbrevs = b"\1\x11\1" + pairs + b"\0\0" + b"\2\x0b\0" + uleb(0x55) + uleb(0x17) + b"\0\0" + b"\0"
    body = struct.pack("<HBBI", 5, 1, 8, 0) + b"\1" + (struct.pack("<I", 8) if functions else b"")
    body += b"".join(b"\2" + struct.pack("<I", place) for place in places * arguments.named) + b"\0"
    info = struct.pack("<I", len(body)) + body
    bodies = [(b".debug_info", info), (b".debug_abbrev", abbrevs), (b".debug_rnglists", bytes(section))]
    if functions:
        bodies.append((b".debug_addr", addresses))
    with open(arguments.file, "wb") as file:
        file.write(elf_file(bodies))


if __name__ == "__main__":
    main()
