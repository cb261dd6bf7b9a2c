"""Reads record files, the certificates that the program writes, by the rules of docs/CERTIFICATE.md."""
from typing import Iterator, List, NamedTuple

MAGIC = b"DWMIN01\n"
LINES, LIST, LAYOUT = 1, 2, 3
# How many pairs of line_base and line_range there are.
PAIRS = 65_280


class Broken(Exception):
    """The bytes are no record file. The number is the place at which they aren't."""


class Record(NamedTuple):
    """A record: where it stands and ends, its kind, and its numbers. Those of a line program are its runs, each a length and a
    number."""
    at: int
    end: int
    kind: int
    numbers: List


def records(file: bytes) -> Iterator[Record]:
    """The records of a file, one after the other; Broken where it is none, once those before were given."""
    if not file.startswith(MAGIC):
        raise Broken(0)
    at = len(MAGIC)
    while at < len(file):
        try:
            numbers, end = runs(file, at + 1) if file[at] == LINES else counted(file, at)
        except (IndexError, ValueError):
            raise Broken(at) from None
        yield Record(at, end, file[at], numbers)
        at = end


def number(file: bytes, at: int):
    """The number that stands at a place, and where it ends. ValueError where it has a byte too many or doesn't fit 64 bits."""
    value = shift = 0
    while True:
        byte = file[at]
        value, shift, at = value | (byte & 127) << shift, shift + 7, at + 1
        if byte < 128:
            break
    if byte == 0 and shift > 7 or value >> 64:
        raise ValueError
    return value, at


def runs(file: bytes, at: int):
    found, left = [], PAIRS
    while left:
        length, at = number(file, at)
        value, at = number(file, at)
        if not 0 < length <= left or value >> 32 or found and found[-1][1] == value:
            raise ValueError
        found.append((length, value))
        left -= length
    return found, at


def counted(file: bytes, at: int):
    if file[at] not in (LIST, LAYOUT):
        raise ValueError
    count, at = number(file, at + 1)
    found = []
    for _ in range(count):
        value, at = number(file, at)
        found.append(value)
    return found, at
