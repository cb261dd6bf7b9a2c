#!/usr/bin/env python3
"""Writes an ELF-64 file with one line number program whose address distances are all drawn anew: what its pair costs to find.

  bench/make_distances.py FILE [--rows N] [--least N] [--most N]

Each row is so many bytes behind the one before, from --least to --most. Without these its address is drawn from all 64 bits, and
named by DW_LNE_set_address. The numbers are drawn by a fixed generator, so the same words give the same bytes.
"""
import argparse
import random
import struct

from elf_files import elf_file, uleb
from make_lines import contribution


def program(rng, rows, least, most):
    """Opcodes of so many rows, whose lines go up by a few."""
    out = bytearray()
    for _ in range(rows):
        if most is None:
            out += b"\0" + uleb(9) + b"\2" + struct.pack("<Q", rng.getrandbits(64))
        else:
            out += b"\2" + uleb(rng.randrange(least, most))
        out.append(13 + 5 + rng.randrange(0, 8))
    return bytes(out) + b"\0\1\1"


def main():
    parser = argparse.ArgumentParser(description=__doc__, formatter_class=argparse.RawDescriptionHelpFormatter)
    parser.add_argument("file")
    parser.add_argument("--rows", type=int, default=4500)
    parser.add_argument("--least", type=int, default=1)
    parser.add_argument("--most", type=int)
    options = parser.parse_args()
    body = program(random.Random(5), options.rows, options.least, options.most)
    with open(options.file, "wb") as handle:
        handle.write(elf_file([(b".debug_line", contribution(body))]))


if __name__ == "__main__":
    main()
