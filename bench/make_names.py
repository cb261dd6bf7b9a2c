#!/usr/bin/env python3
"""Makes an ELF file whose sections have names that end at one of two zero bytes, with the same bytes before both but for the last one.

  bench/make_names.py FILE [--sections N] [--bytes N]

Half of N sections have names that end at the first zero byte, and half of them names that end at the second; each name of the one half is
as long as one of the other. The longest two have so many bytes. All are debug names that aren't known, so that the file is refused; before
that no two may be found the same. Defaults: 32,000 sections and 1,120,000 bytes, a file of 4.3 MB.
"""
import argparse

from elf_files import HEADER_SIZE, Section, aligned, assembled

FIRST = b".debug_"


def names_and_places(count, size):
    """The bytes of the names, and where each begins."""
    step = max(len(FIRST), size // count)
    text = FIRST.ljust(step, b"x") * count
    names = b"\0" + text + b"a\0" + text + b"b\0"
    return names, [1 + half * (len(text) + 2) + step * i for half in (0, 1) for i in range(count)]


def main():
    words = argparse.ArgumentParser(description=__doc__, formatter_class=argparse.RawDescriptionHelpFormatter)
    words.add_argument("file")
    words.add_argument("--sections", type=int, default=32_000)
    words.add_argument("--bytes", type=int, default=1_120_000)
    given = words.parse_args()
    names, places = names_and_places(given.sections // 2, given.bytes)
    sections = [Section(b"", HEADER_SIZE, b"") for _ in places] + [Section(b"", HEADER_SIZE, names, kind=3)]
    with open(given.file, "wb") as file:
        file.write(assembled(sections, [*places, 0], aligned(HEADER_SIZE + len(names), 8)))


if __name__ == "__main__":
    main()
