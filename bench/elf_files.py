"""ELF-64 files for the measures and the tests, and the LEB128 numbers that stand in them."""
import itertools
import struct
from typing import NamedTuple

HEADER_SIZE = 64


def uleb(value, padding=0):
    """An unsigned number in its fewest bytes and so many bytes of padding."""
    size = max(1, -(-value.bit_length() // 7)) + padding
    digits = [value >> 7 * place & 127 for place in range(size)]
    return bytes([digit | 128 for digit in digits[:-1]] + digits[-1:])


def sleb(value):
    """A signed number in its fewest bytes."""
    out = bytearray()
    while not -64 <= value < 64:
        out.append(value & 127 | 128)
        value >>= 7
    return bytes(out) + bytes([value & 127])


def aligned(place, alignment):
    """The next place that is a multiple of the alignment."""
    return place + -place % alignment


class Section(NamedTuple):
    name: bytes
    at: int
    body: bytes
    kind: int = 1
    flags: int = 0
    alignment: int = 1

    def header(self, name_at):
        return struct.pack("<IIQQQQIIQQ", name_at, self.kind, self.flags, 0, self.at, len(self.body), 0, 0, self.alignment, 0)


def names_of(names):
    """The body of the section of names, for sections with these names and itself as the last."""
    return b"".join(name + b"\0" for name in [b"", *names, b".shstrtab"])


def assembled(sections, name_places, headers_at):
    """An executable file whose sections stand where they say, with the places of their names in the last one, which holds these.
    Between them are zeros."""
    headers = bytes(HEADER_SIZE) + b"".join(it.header(place) for it, place in zip(sections, name_places))
    head = struct.pack(
        "<16sHHIQQQIHHHHHH", b"\x7fELF\x02\x01\x01", 2, 62, 1, 0, 0, headers_at, 0, 64, 0, 0, 64, len(sections) + 1, len(sections)
    )
    parts = [(0, head), (headers_at, headers), *((section.at, section.body) for section in sections)]
    file = bytearray(max(at + len(body) for at, body in parts))
    for at, body in parts:
        file[at : at + len(body)] = body
    return bytes(file)


def placed(sections, names_at, headers_at):
    """The same for sections without the one that holds their names, which becomes the last."""
    names = names_of(section.name for section in sections)
    sections = [*sections, Section(b".shstrtab", names_at, names, kind=3)]
    return assembled(sections, [names.index(b"\0" + it.name + b"\0") + 1 for it in sections], headers_at)


def elf_file(bodies):
    """A file with these sections, given as pairs of a name and a body, one after the other: it has the layout of a written file."""
    places = list(itertools.accumulate((len(body) for _, body in bodies), initial=HEADER_SIZE))
    sections = [Section(name, at, body) for (name, body), at in zip(bodies, places)]
    names_end = places[-1] + len(names_of(name for name, _ in bodies))
    return placed(sections, places[-1], aligned(names_end, 8))
