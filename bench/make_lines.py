#!/usr/bin/env python3
"""Writes the bytes of a .debug_line section for the measures: programs of about a megabyte, as a compiler makes them.

  bench/make_lines.py FILE [--megabytes N] [--padded] [--wide]
  bench/make_lines.py --elf FILE ..                        the same as the one debug section of an ELF-64 file
  bench/make_lines.py FILE --programs N [--bytes N]        so many programs of about so many bytes, each drawn anew

--padded: one operand in eight has a byte of padding. --wide: each row has a file and a discriminator of its own, so
that 200 megabytes have fewer rows than the limit of 2^25; without it 100 megabytes do.
The opcodes are drawn by a fixed generator, so the same words give the same bytes.
"""
import argparse
import random
import struct

from elf_files import elf_file, sleb, uleb


def program(rng, size, padding, wide):
    """Opcodes of about this many bytes: sequences of a few hundred rows, lines that go up and down."""
    out = bytearray()
    address = 0x400000

    def padded():
        return padding and rng.randrange(8) == 0

    while len(out) < size:
        out += b"\0" + uleb(9) + b"\2" + struct.pack("<Q", address)
        line = 1
        for _ in range(rng.randrange(50, 400)):
            draw = rng.random()
            if wide:
                out += b"\4" + uleb(rng.randrange(1, 300), padded()) + b"\0\3\4" + uleb(rng.randrange(128, 4096))
            if draw < 0.6:
                out += b"\5" + uleb(rng.randrange(1, 120), padded())
            if draw < 0.3:
                out += b"\6"
            if 0.3 < draw < 0.35:
                out += b"\0" + uleb(1 + len(uleb(rng.randrange(1, 9)))) + b"\4" + uleb(rng.randrange(1, 9))
            if draw > 0.98:
                out += b"\x0a"
            step = rng.randrange(-5, 9)
            if line + step < 1:
                step = 1
            if 0.8 < draw < 0.9:
                step = rng.randrange(1, 3000)
                out += b"\3" + sleb(step) + b"\1"
            elif draw >= 0.9:
                out += b"\2" + uleb(rng.randrange(1, 500), padded())
                out.append(13 + step + 5)
            else:
                out.append(13 + step + 5 + 14 * rng.randrange(0, 16))
            line += step
        out += b"\2" + uleb(rng.randrange(1, 60), padded()) + b"\0\1\1"
        address += 0x10000
    return bytes(out)


def contribution(body):
    """A program of these opcodes behind its head."""
    counts = bytes([0, 1, 1, 1, 1, 0, 0, 0, 1, 0, 0, 1])
    entries = bytes(4)
    head = bytes([1, 1, 1, 0xFB, 14, 13]) + counts + entries
    return struct.pack("<IHBBI", 8 + len(head) + len(body), 5, 8, 0, len(head)) + head + body


def unit(rng, size, padding, wide):
    return contribution(program(rng, size, padding, wide))


def main():
    parser = argparse.ArgumentParser(description=__doc__, formatter_class=argparse.RawDescriptionHelpFormatter)
    parser.add_argument("file")
    parser.add_argument("--megabytes", type=int, default=100)
    parser.add_argument("--programs", type=int)
    parser.add_argument("--bytes", type=int, default=450, help="of a program; 450 are about 200 rows")
    parser.add_argument("--padded", action="store_true")
    parser.add_argument("--wide", action="store_true")
    parser.add_argument("--elf", action="store_true")
    options = parser.parse_args()
    rng = random.Random(5)
    if options.programs:
        section = b"".join(unit(rng, options.bytes, options.padded, options.wide) for _ in range(options.programs))
    else:
        block = b"".join(unit(rng, 1 << 20, options.padded, options.wide) for _ in range(min(4, options.megabytes)))
        section = block * max(1, options.megabytes // 4)
    with open(options.file, "wb") as handle:
        handle.write(elf_file([(b".debug_line", section)]) if options.elf else section)


if __name__ == "__main__":
    main()
