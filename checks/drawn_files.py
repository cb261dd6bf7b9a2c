"""The file that `mikadocherry make NUMBER UNITS OUT` has to write, by docs/FORMATS.md ("Drawn files")."""
import struct

from elf_files import elf_file, sleb, uleb

# The declarations of a unit, a function, a parameter, a type and a block, by their attributes and forms (DWARF 5 section 7.5).
ABBREVS = (
    b"\1\x11\1\x25\x0e\x13\x0b\x03\x1f\x1b\x1f\x11\1\x12\7\x10\x17\0\0"
    b"\2\x2e\1\x3f\x19\3\x08\x3a\x21\1\x3b\x0b\x49\x13\x11\1\x12\7\x40\x18\1\x13\0\0"
    b"\3\5\0\3\x08\x3b\x0b\x49\x13\2\x17\xb7\x42\x17\0\0"
    b"\4\x24\0\x0b\x0b\x3e\x0b\3\x08\0\0"
    b"\5\x0b\0\x55\x17\0\0"
    b"\0"
)

# What stands in the header of a program behind its length: the tables too.
LINE_HEADER = (
    struct.pack("<HBBIBBBbBB", 5, 8, 0, 42, 1, 1, 1, -5, 14, 13)
    + b"\0\1\1\1\1\0\0\0\1\0\0\1"
    + b"\1\1\x1f\1\4\0\0\0"
    + b"\2\1\x1f\2\x0f\2\0\0\0\0\0\0\0\0\0\0"
)

LIST_HEADER = struct.pack("<HBBI", 5, 8, 0, 0)

# The bytes of the header of a unit, and of the entries of its root and its type.
UNIT_HEAD, ROOT, TYPE = 12, 34, 7


class Draws:
    """Numbers that all follow from the first."""

    def __init__(self, number):
        self.state = number

    def below(self, count):
        self.state = (self.state * 6364136223846793005 + 1442695040888963407) % 2**64
        return (self.state >> 33) % count


def with_length(body):
    return struct.pack("<I", len(body)) + body


def function_drawn(draws):
    """What is drawn of a function, in the order of the draws."""
    size, parameter_count = 16 + 4 * draws.below(200), draws.below(4)
    parameters = [(4 * (1 + draws.below(3)), draws.below(16)) for _ in range(parameter_count)]
    ranges = [2 + draws.below(2) for _ in range(1 + draws.below(3))] if draws.below(2) else []
    column = 1 + draws.below(40)
    steps = [(1 + draws.below(12), draws.below(12) - 2) for _ in range(7 + draws.below(32))]
    return size, parameters, ranges, column, steps


def location_list(offset, size, split, register):
    """A parameter's view pairs and location list."""
    pairs = (offset, offset + split, bytes([0x50 + register])), (offset + split, offset + size, b"\x30\x9f")
    entries = [b"\4" + uleb(start) + uleb(end) + uleb(len(code)) + code for start, end, code in pairs]
    return b"\0\1\1\0" + b"".join(entries) + b"\0"


def range_list(address, sizes):
    return b"".join(b"\6" + struct.pack("<QQ", address + 4 * v, address + 4 * v + size) for v, size in enumerate(sizes)) + b"\0"


def sequence(address, number, column, steps):
    """The opcodes of a function's rows."""
    first = b"\5" + uleb(column) + b"\0\x09\2" + struct.pack("<Q", address) + b"\3" + sleb(100 * (number + 1) - 1) + b"\1"
    rows = b"".join(b"\2" + uleb(advance) + b"\3" + sleb(line) + b"\1" for advance, line in steps)
    return first + rows + b"\2\4" + b"\0\1\1"


def function_entries(function, number, address, at, base_type, locations, ranges):
    """The entries of a function, the first of which stands at a place of its unit, and its lists, which are appended to both."""
    size, parameters, sizes, _, _ = function
    children = b""
    for split, register in parameters:
        views = 12 + len(locations)
        locations += location_list(0x1000 * number, size, split, register)
        children += b"\3x\0" + struct.pack("<BIII", number + 1, base_type, views + 4, views)
    if sizes:
        children += b"\5" + struct.pack("<I", 12 + len(ranges))
        ranges += range_list(address, sizes)
    own = b"\2f\0" + struct.pack("<BIQQ", number + 1, base_type, address, size) + b"\1\x9c"
    return own + struct.pack("<I", at + len(own) + 4 + len(children) + 1) + children + b"\0"


def function_bytes(function):
    return 30 + 16 * len(function[1]) + 5 * bool(function[2]) + 1


def drawn_file(number, units):
    draws = Draws(number)
    info, lines, locations, ranges, sets = b"", b"", bytearray(), bytearray(), b""
    for u in range(units):
        base = 0x400000 + 0x10000 * u
        functions = [function_drawn(draws) for _ in range(1 + draws.below(8))]
        base_type = UNIT_HEAD + ROOT + sum(map(function_bytes, functions))
        entries = b"\1" + struct.pack("<IBIIQQI", 0, 0x1D, 0, 4, base, 0x10000, len(lines))
        opcodes = b""
        for i, function in enumerate(functions):
            address = base + 0x1000 * i
            entries += function_entries(function, i, address, UNIT_HEAD + len(entries), base_type, locations, ranges)
            opcodes += sequence(address, i, *function[3:])
        entries += b"\4\4\5int\0" + b"\0"
        lines += with_length(LINE_HEADER + opcodes)
        sets += struct.pack("<IHIBB", 28, 2, len(info), 8, 0) + bytes(20)
        info += with_length(struct.pack("<HBBI", 5, 1, 8, 0) + entries)
    bodies = info, ABBREVS, lines, with_length(LIST_HEADER + ranges), with_length(LIST_HEADER + locations), sets
    names = b".debug_info", b".debug_abbrev", b".debug_line", b".debug_rnglists", b".debug_loclists", b".debug_aranges"
    return elf_file(list(zip(names, bodies)))
