#!/usr/bin/env python3
"""Reads the headers of an ELF file: which sections it has, where they stand, and which bytes nothing holds.

  elf_headers.py FILE KIND PLACE     prints the name of the section of which a refusal of this kind tells at this place

That prints nothing and has the status 1 where there is no such section, or where the headers of the file are damaged.
mikadocherry-tree imports this file, and the launcher of mikadocherry runs it.
"""
from __future__ import annotations

import os
import struct
import sys
from dataclasses import dataclass
from typing import Iterator, Optional, Tuple

# The letters of struct for the class and the byte order that an ELF file names.
LONG = {1: "I", 2: "Q"}
ORDER = {1: "<", 2: ">"}
# Types of sections: without a meaning, and without bytes in the file. And the flag of one that is loaded.
NULL, NOBITS, ALLOC = 0, 8, 2
# The debug sections that the program reads or keeps; it refuses all other debug names as Companion, and .gdb_index.
KNOWN = {
    b".debug_" + word
    for word in b"info abbrev line rnglists loclists aranges str line_str str_offsets addr frame gdb_scripts".split()
}
# How many bytes of a section of names are read, and of one name and of a gap at once.
NAMES_READ, NAME_READ, GAP_READ = 1 << 24, 64, 1 << 16

Range = Tuple[int, int]


@dataclass(frozen=True)
class Section:
    """A section: the place of its header, its name as far as it was read, and where it begins and ends in the file. The
    name is None where it doesn't stand in the section of names."""

    header_at: int
    name: Optional[bytes]
    kind: int
    flags: int
    start: int
    size: int

    @property
    def end(self) -> int:
        return self.start + self.size

    @property
    def has_bytes(self) -> bool:
        return self.kind not in (NULL, NOBITS)

    @property
    def is_debug(self) -> bool:
        return self.name is not None and self.name.startswith((b".debug_", b".zdebug_"))


@dataclass(frozen=True)
class Headers:
    """The sections of a file, the ranges of its segments, and those of its header and of the tables of headers."""

    sections: list[Section]
    segments: list[Range]
    tables: list[Range]

    @property
    def debug_bytes(self) -> int:
        return sum(it.size for it in self.sections if it.is_debug and it.has_bytes)

    def held(self) -> list[Range]:
        return [(it.start, it.end) for it in self.sections if it.has_bytes] + self.tables

    def fixed_end(self) -> int:
        """The place below which the program keeps each byte: docs/FORMATS.md says it so. The last table is that of the
        sections, which moves."""
        loaded = [it.end for it in self.sections if it.has_bytes and it.flags & ALLOC]
        return max([end for _, end in self.tables[:-1] + self.segments] + loaded)

    def gaps(self, size: int) -> Iterator[Range]:
        """What no header, segment or section holds of a file of this size, from the fixed end on."""
        at = self.fixed_end()
        for start, end in sorted(self.held()):
            if at < start:
                yield at, start
            at = max(at, end)
        if at < size:
            yield at, size


def read_headers(file: int, size: int) -> Optional[Headers]:
    """The headers of an open file of this size, or None where they are damaged, of a rare kind or not those of ELF."""
    head = os.pread(file, 64, 0)
    if len(head) < 6 or head[:4] != b"\x7fELF" or head[4] not in LONG or head[5] not in ORDER:
        return None
    order, long = ORDER[head[5]], LONG[head[4]]
    header = struct.Struct(f"{order}3{long}I6H")
    if len(head) < 24 + header.size:
        return None
    _, segments_at, sections_at, _, _, segment_size, segments, section_size, count, names = header.unpack_from(head, 24)
    if count == 0 and sections_at == 0:
        names = 0
    elif names >= count:
        return None
    segment = struct.Struct(f"{order}8I" if long == "I" else f"{order}II6Q")
    section = struct.Struct(f"{order}II4{long}II2{long}")
    segment_table = read_table(file, size, segments_at, segment_size, segments, segment)
    section_table = read_table(file, size, sections_at, section_size, count, section)
    if segment_table is None or section_table is None:
        return None
    offset_at, length_at = (1, 4) if long == "I" else (2, 5)
    return Headers(
        named_sections(file, sections_at, section.size, section_table, names),
        [(it[offset_at], it[offset_at] + it[length_at]) for it in segment_table],
        [
            (0, 24 + header.size),
            (segments_at, segments_at + segments * segment_size) if segments else (0, 0),
            (sections_at, sections_at + count * section_size),
        ],
    )


def read_table(
    file: int, size: int, at: int, entry_size: int, count: int, entry: struct.Struct
) -> Optional[list[tuple]]:
    """The entries of a table of headers, or None where they have another size or leave the file."""
    if count == 0:
        return []
    if entry_size != entry.size or at + count * entry_size > size:
        return None
    table = os.pread(file, count * entry_size, at)
    return list(entry.iter_unpack(table)) if len(table) == count * entry_size else None


def named_sections(file: int, at: int, header_size: int, headers: list[tuple], names: int) -> list[Section]:
    texts = b""
    if names and headers[names][4] < 1 << 62:
        texts = os.pread(file, min(headers[names][5], NAMES_READ), headers[names][4])
    found = []
    for number, (name_at, kind, flags, _, start, size, *_) in enumerate(headers):
        name = texts[name_at : name_at + NAME_READ].split(b"\0")[0] if name_at < len(texts) else None
        # without a section of names all are empty
        found.append(Section(at + number * header_size, name if names else b"", kind, flags, start, size))
    return found


def has_appended_bytes(file: int, size: int, headers: Headers) -> bool:
    """Whether a file has bytes that nothing holds and that the program wouldn't keep: any behind the end of all that
    its headers name, or others than the zeros of padding before that. Not where its headers name more than it has: what
    is wrong with it is for the program to say."""
    if max(end for _, end in headers.held() + headers.segments) > size:
        return False
    return any(end == size or not is_zero(file, start, end) for start, end in headers.gaps(size))


def is_zero(file: int, start: int, end: int) -> bool:
    for at in range(start, end, GAP_READ):
        piece = os.pread(file, min(GAP_READ, end - at), at)
        if piece.count(0) != len(piece):
            return False
    return True


def section_of(headers: Headers, kind: str, place: int) -> Optional[Section]:
    """The section of which a refusal tells: that of the header at the place where it says Torn, else that which holds
    the place, or begins there without a byte. Of several debug sections come first, and by Companion unknown ones."""
    if kind == "Torn":
        return next((it for it in headers.sections if it.header_at == place and place), None)

    def rank(it: Section) -> tuple[bool, bool, bool]:
        is_unknown = it.name == b".gdb_index" or it.is_debug and it.name not in KNOWN
        return kind == "Companion" and is_unknown and it.start == place, it.is_debug, it.size > 0

    near = [it for it in headers.sections if it.has_bytes and (it.start <= place < it.end or it.start == place)]
    return max(near, key=rank, default=None)


def shown_name(section: Optional[Section]) -> str:
    """A section's name in one line of plain letters, or nothing."""
    if section is None or not section.name:
        return ""
    return "".join(chr(it) if 32 < it < 127 and it != 92 else f"\\x{it:02x}" for it in section.name)


def section_name(file: int, kind: str, place: int) -> str:
    headers = read_headers(file, os.fstat(file).st_size)
    return shown_name(section_of(headers, kind, place)) if headers else ""


def main(path: str, kind: str, place: str) -> int:
    try:
        # a pipe without a writer must not let this wait
        file = os.open(path, os.O_RDONLY | os.O_NONBLOCK | os.O_CLOEXEC)
        name = section_name(file, kind, int(place))
    except (OSError, ValueError, OverflowError, MemoryError):
        return 1
    if name:
        print(name)
    return 0 if name else 1


if __name__ == "__main__":
    sys.exit(main(*sys.argv[1:]) if len(sys.argv) == 4 else __doc__)
