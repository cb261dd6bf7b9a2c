#!/usr/bin/env python3
"""Runs the built program on real files, and tests what no clause can reach: the system's files, its standard output and words, and
files that are too large for a test in memory.

  checks/edge.py [--packages PROGRAM] [PROGRAM]

Left out, PROGRAM is crates/shrink_app/out/shrink_app, and the one for debug packages crates/packages_app/out/packages_app. Each test is made
of both; where the latter isn't built its tests are skipped.

What has to be written is known without the program: the wanted files are made here, by the rules of docs/FORMATS.md, and so are
nearly all wanted certificates, by those of docs/CERTIFICATE.md. Each test prints one line. The last line is `N passed, M failed`,
and the exit status is 1 where one failed.
"""
import argparse
import functools
import itertools
import json
import os
import random
import re
import resource
import shutil
import struct
import subprocess
import sys
import time

sys.dont_write_bytecode = True
TOP = os.path.dirname(os.path.dirname(os.path.abspath(__file__)))
sys.path.insert(0, os.path.join(TOP, "bench"))
from drawn_files import drawn_file
from elf_files import Section, aligned, elf_file, names_of, placed, sleb, uleb
from harness import BUILT, BUILT_FOR_PACKAGES, SECONDS, Failure, Skipped, Tests, executable
from record_files import LAYOUT, LINES, MAGIC, PAIRS, records

LIMIT = 1 << 30
SHRINK = ["shrink", "in", "out", "cert"]
CHECK = ["check", "in", "out", "cert"]
# The first bytes of a certificate for packages.
MAGIC_FOR_PACKAGES = b"DWMINP1\n"
test = Tests()


def difference(found, wanted):
    """In which bytes two files differ, as words, or nothing."""
    if found == wanted:
        return ""
    at = next((i for i, (a, b) in enumerate(zip(found, wanted)) if a != b), min(len(found), len(wanted)))
    return f"{len(found)} bytes and not {len(wanted)}, which differ first at {at}"


class Place:
    """A folder for one test, in which the program runs, and the first bytes of the certificates that it writes."""

    def __init__(self, program, folder, magic=MAGIC):
        self.program, self.folder, self.magic = program, folder, magic

    def is_for_packages(self):
        return self.magic == MAGIC_FOR_PACKAGES

    def of_lines(self, records_of_lines):
        """The records of line number programs: none where these stay as they are."""
        return b"" if self.is_for_packages() else records_of_lines

    def path(self, name):
        return os.path.join(self.folder, name)

    def write(self, name, body):
        with open(self.path(name), "wb") as file:
            file.write(body)

    def read(self, name):
        with open(self.path(name), "rb") as file:
            return file.read()

    def files(self):
        """The bytes of each file, by its name, and None for a folder."""
        return {name: None if os.path.isdir(self.path(name)) else self.read(name) for name in os.listdir(self.folder)}

    def answers(self, words, status, said, stdout=subprocess.PIPE, prepare=None):
        """Fails where the program doesn't answer these words with this status and this on standard output."""
        try:
            run = subprocess.run(
                [self.program, *words], cwd=self.folder, stdout=stdout, stderr=subprocess.PIPE, timeout=SECONDS, preexec_fn=prepare
            )
        except subprocess.TimeoutExpired:
            raise Failure(f"{words}: no answer in {SECONDS} seconds") from None
        found = (run.returncode, run.stdout or b"", run.stderr)
        if found != (status, said, b""):
            raise Failure(f"{words}: status {found[0]}, {found[1]!r} and {found[2]!r} said, and not {status} and {said!r}")

    def keeps(self, words, status, said=b"", **how):
        """Fails where the program doesn't answer so, or where a file differs then, was made or is missing."""
        self.leaves(words, status, said, self.files(), **how)

    def writes(self, words, written, records=b""):
        """Fails where the program doesn't write these bytes to OUT, and these records to CERT behind the first bytes of a record
        file, and leave all other files as they are."""
        self.leaves(words, 0, b"", {**self.files(), words[2]: written, words[3]: self.magic + records})

    def leaves(self, words, status, said, wanted, **how):
        self.answers(words, status, said, **how)
        found = self.files()
        for name in found.keys() | wanted.keys():
            if name not in found or name not in wanted:
                raise Failure(f"{words}: {name} is {'made' if name in found else 'missing'}")
            if found[name] != wanted[name]:
                raise Failure(f"{words}: {name} has {difference(found[name], wanted[name])}")


def unit(entries, table=0):
    """A compilation unit with these bytes behind its header, whose abbreviation table begins at this place."""
    return struct.pack("<IHBBI", 8 + len(entries), 5, 1, 8, table) + entries


def file_of_units(units, table):
    """A file with these units by one abbreviation table, and an empty set of address ranges for each."""
    places = itertools.accumulate(map(len, units[:-1]), initial=0)
    sets = b"".join(struct.pack("<IHIBB", 28, 2, place, 8, 0) + bytes(20) for place in places)
    return elf_file([(b".debug_info", b"".join(units)), (b".debug_abbrev", table), (b".debug_aranges", sets)])


# A unit of IN has codes from 5 on and bytes 0 behind its tree: its root, a variable that refers to the type behind it, and
# the type, whose size of 4 stands in the entry.
TABLE_IN = b"\5\x11\1\0\0" + b"\6\x34\0\x49\x13\3\x08\0\0" + b"\7\x24\0\x0b\x0b\0\0" + b"\0"


def unit_in(number):
    name = b"v%d\0" % number
    return unit(b"\5\6" + struct.pack("<I", 18 + len(name)) + name + b"\7\4" + b"\0" + bytes(number % 4))


# In OUT the codes begin at 1, nothing follows the tree, the size, which is the same in all units, stands in the table, as
# DW_FORM_implicit_const, and the reference has one byte in DW_FORM_ref_udata: the type stands below 128.
TABLE_OUT = b"\1\x11\1\0\0" + b"\2\x34\0\x49\x15\3\x08\0\0" + b"\3\x24\0\x0b\x21\4\0\0" + b"\0"


def unit_out(number):
    name = b"v%d\0" % number
    return unit(b"\1\2" + uleb(15 + len(name)) + name + b"\3" + b"\0")


# The records of so many units whose slots all have their smallest size, so that there is no rank.
def no_ranks(count):
    return b"\3\0" * count


def pair_of_units(count):
    """A file with so many units, and what has to be written for it."""
    return file_of_units(list(map(unit_in, range(count))), TABLE_IN), file_of_units(list(map(unit_out, range(count))), TABLE_OUT)


@test
def wrong_words(place):
    """wrong words, none, fewer than three names, equal names and not UTF-8 ones too, are answered by `words`, and no file differs"""
    place.write("in", pair_of_units(2)[0])
    place.write("there", b"before")
    for words in (
        [],
        ["shrink"],
        ["shrink", "in"],
        ["shrink", "in", "out"],
        ["in", "out", "cert"],
        ["shrink", "in", "in", "cert"],
        ["shrink", "in", "out", "in"],
        ["shrink", "in", "out", "out"],
        ["shrink", "in", "in", "in"],
        ["shrink", "in", "there", "there"],
        ["shrink", "in", "out", "cert", "more"],
        ["grow", "in", "out", "cert"],
        ["", "in", "out", "cert"],
        ["check"],
        ["check", "in", "out"],
        ["check", "in", "in", "cert"],
        ["check", "in", "there", "there"],
        ["stat"],
        ["stat", "in", "out"],
        ["stat", b"in\xff"],
        ["make", "1", "out"],
        ["make", "01", "4", "out"],
        ["make", "+1", "4", "out"],
        ["make", "", "4", "out"],
        ["make", "0x1", "4", "out"],
        ["make", "4294967296", "4", "out"],
        ["make", "1", "0", "out"],
        ["make", "1", "4097", "out"],
        ["make", "1", "4", b"out\xff"],
        [b"shrink\xff", "in", "out", "cert"],
        ["shrink", b"in\xff", "out", "cert"],
        ["shrink", "in", b"out\xc3", "cert"],
        ["shrink", "in", "out", b"cert\xff"],
    ):
        place.keeps(words, 2, b"words\n")


@test
def inputs_that_cannot_be_read(place):
    """IN that is missing or a folder has the status 4, and OUT and CERT aren't touched"""
    os.mkdir(place.path("folder"))
    for name in ("missing", "folder", ""):
        place.keeps(["shrink", name, "out", "cert"], 4)
    place.write("out", b"before")
    place.write("cert", b"before")
    for name in ("missing", "folder"):
        place.keeps(["shrink", name, "out", "cert"], 4)


@test
def summaries(place):
    """stat says the sizes of sections before and after, and how many entries, rows and units IN has, and no file differs"""
    count = 3
    source, _ = pair_of_units(count)
    place.write("in", source)
    info = [sum(len(unit_of(number)) for number in range(count)) for unit_of in (unit_in, unit_out)]
    said = {"abbrev": [len(TABLE_IN), len(TABLE_OUT)], "entries": 3 * count, "info": info, "line": [0, 0], "loclists": [0, 0],
            "rnglists": [0, 0], "rows": 0, "units": count}
    line = json.dumps(said, separators=(",", ":")).encode() + b"\n"
    place.keeps(["stat", "in"], 0, line)
    place.keeps(["stat", "missing"], 4)
    if os.path.exists("/dev/full"):
        with open("/dev/full", "wb") as full:
            place.keeps(["stat", "in"], 5, stdout=full)


@test
def checked_files(place):
    """check accepts what is to be written, with its certificate, and else says the first reason why not, and no file differs"""
    count = 3
    source, written = pair_of_units(count)
    units = [unit_in(number) for number in range(count)]
    renamed = file_of_units([units[0], units[1].replace(b"v1\0", b"w1\0"), units[2]], TABLE_IN)
    abbrev = 64 + sum(map(len, units))
    certificate = place.magic + no_ranks(count)
    for files, status, said in (
        ((source, written, certificate), 0, b"accepted"),
        # Its own output: DW_AT_type of the second declaration isn't DW_FORM_ref_udata.
        ((source, source, certificate), 7, b"rejected class %d" % (abbrev + 5)),
        ((source, written + b"\0", certificate), 7, b"rejected class %d" % len(written)),
        ((renamed, written, certificate), 7, b"rejected differs 1 1"),
        ((elf_file([]), written, certificate), 7, b"rejected kept "),
        ((source, written, b""), 7, b"rejected record 0"),
        ((source, written, (MAGIC if place.is_for_packages() else MAGIC_FOR_PACKAGES) + no_ranks(count)), 7, b"rejected record 0"),
        ((source, written, certificate[:-1]), 7, b"rejected record 12"),
        ((source, written, certificate[:-2]), 7, b"rejected record 12"),
        ((source, written, certificate + no_ranks(1)), 7, b"rejected record 14"),
        ((source, written, place.magic + b"\2\0" + no_ranks(2)), 7, b"rejected record 8"),
        # A rank too many is a fault of the unit's last slot.
        ((source, written, place.magic + b"\3\1\0" + no_ranks(2)), 7, b"rejected slot 0 0"),
        ((b"", written, certificate), 3, b"refused in NotElf64 at 0"),
        ((source, b"", certificate), 3, b"refused out NotElf64 at 0"),
    ):
        for name, body in zip(CHECK[1:], files):
            place.write(name, body)
        place.keeps(CHECK, status, said + b"\n")
    for name in CHECK[1:]:
        os.remove(place.path(name))
        place.keeps(CHECK, 4)
        place.write(name, b"")
    if os.path.exists("/dev/full"):
        with open("/dev/full", "wb") as full:
            place.keeps(CHECK, 5, stdout=full)


def sections_of(file):
    """The bytes of the sections of a file, by their names."""
    (headers_at,), (count, names) = struct.unpack_from("<Q", file, 40), struct.unpack_from("<HH", file, 60)
    headers = [struct.unpack_from("<I20xQQ", file, headers_at + 64 * number) for number in range(count)]
    names_at = headers[names][1]
    return {file[names_at + name : file.index(b"\0", names_at + name)]: file[at : at + size] for name, at, size in headers}


@test
def drawn_files(place):
    """make writes the file that is drawn from its number, with up to 4,096 units, stat, shrink and check take it, and shrink takes OUT"""
    for number, units in ((0, 1), (7, 2), (4294967295, 3), (1, 4096)):
        words = ["make", str(number), str(units), "drawn"]
        place.leaves(words, 0, b"", {**place.files(), "drawn": drawn_file(number, units)})
    run = subprocess.run([place.program, "stat", "drawn"], cwd=place.folder, capture_output=True, timeout=SECONDS)
    place.answers(["shrink", "drawn", "out", "cert"], 0, b"")
    place.keeps(["check", "drawn", "out", "cert"], 0, b"accepted\n")
    written, certificate = place.read("out"), place.read("cert")
    old, new = sections_of(place.read("drawn")), sections_of(written)
    said = json.loads(run.stdout)
    names = {key: b".debug_" + key.encode() for key in ("abbrev", "info", "line", "loclists", "rnglists")}
    wanted = {key: [len(old[name]), len(new[name])] for key, name in names.items()}
    if said != {**said, **wanted, "units": 4096} or wanted["info"][1] >= wanted["info"][0]:
        raise Failure(f"stat says {said}, and the files have {wanted}")
    if place.is_for_packages():
        # no number of the lists is padded, and none of their expressions names an entry
        for key in ("line", "loclists", "rnglists"):
            if new[names[key]] != old[names[key]]:
                raise Failure(f"{names[key]} has {difference(new[names[key]], old[names[key]])}")
        kinds = [record.kind for record in records(MAGIC + certificate[len(place.magic) :])]
        if kinds != [LAYOUT] * 4096:
            raise Failure(f"CERT has {len(kinds)} records of the kinds {set(kinds)}")
    place.writes(["shrink", "out", "again", "its"], written, certificate[len(place.magic) :])
    for name in ("missing/out", "/dev/full") if os.path.exists("/dev/full") else ("missing/out",):
        place.keeps(["make", "7", "2", name], 5)


@test
def outputs_that_cannot_be_written(place):
    """OUT in a folder that isn't there, or a folder, or on a full device has the status 5, and CERT isn't touched"""
    place.write("in", pair_of_units(2)[0])
    os.mkdir(place.path("folder"))
    names = ["missing/out", "folder", "", *(["/dev/full"] if os.path.exists("/dev/full") else [])]
    for name in names:
        place.keeps(["shrink", "in", name, "cert"], 5)
    place.write("cert", b"before")
    for name in names:
        place.keeps(["shrink", "in", name, "cert"], 5)


@test
def certificates_that_cannot_be_written(place):
    """CERT in a folder that isn't there, or a folder, or on a full device has the status 5, and OUT is whole then"""
    source, written = pair_of_units(2)
    place.write("in", source)
    os.mkdir(place.path("folder"))
    for name in ("missing/cert", "folder", "", *(["/dev/full"] if os.path.exists("/dev/full") else [])):
        for before in (None, b"before", b"\xff" * 100_000):
            if before is not None:
                place.write("out", before)
            place.leaves(["shrink", "in", "out", name], 5, b"", {**place.files(), "out": written})
            os.remove(place.path("out"))


@test
def certificates_that_are_thrown_away(place):
    """CERT may be /dev/null, and OUT is written then"""
    source, written = pair_of_units(2)
    place.write("in", source)
    place.leaves(["shrink", "in", "out", "/dev/null"], 0, b"", {**place.files(), "out": written})


@test
def messages_that_cannot_be_written(place):
    """a message that standard output doesn't take has the status 5"""
    if not os.path.exists("/dev/full"):
        raise Skipped("there is no /dev/full")
    place.write("in", b"")
    with open("/dev/full", "wb") as full:
        place.keeps([], 5, stdout=full)
        place.keeps(SHRINK, 5, stdout=full)


@test
def refused_files(place):
    """a refused file has the status 3 and one line, at places with up to seven digits, and OUT and CERT aren't made"""
    whole = pair_of_units(2)[0]
    old = [unit_in(number) for number in range(40_000)]
    last = 64 + sum(map(len, old[:-1]))
    old[-1] = old[-1][:4] + b"\4" + old[-1][5:]
    for body, line in (
        (b"", b"refused NotElf64 at 0\n"),
        (b"\x7fELF\1" + whole[5:], b"refused NotElf64 at 0\n"),
        (whole[:16] + b"\1" + whole[17:], b"refused FileType at 16\n"),
        (elf_file([(b".text", b"1234567"), (b".debug_macro", b"")]), b"refused Companion at 71\n"),
        (file_of_units(old, TABLE_IN), b"refused UnitHead at %d\n" % last),
    ):
        place.write("in", body)
        place.keeps(SHRINK, 3, line)
    place.write("out", b"before")
    place.write("cert", b"before")
    place.keeps(SHRINK, 3, line)


@test
def longer_files_are_emptied(place):
    """OUT and CERT that are there and longer than what is written have none of their old bytes"""
    source, written = pair_of_units(2)
    place.write("in", source)
    for size in (len(written) + 1, 1_000_000):
        place.write("out", b"\xff" * size)
        place.write("cert", (place.magic + no_ranks(3)) * size)
        place.writes(SHRINK, written, no_ranks(2))


@test
def names_of_files(place):
    """names with spaces, other letters than ASCII's and a leading - are names like all others"""
    source, written = pair_of_units(2)
    for name in ("a b", "größer", "-", "--help"):
        place.write(name, source)
        place.writes(["shrink", name, name + ".new", name + ".cert"], written, no_ranks(2))
    place.writes(["shrink", "-", "again", "--version"], written, no_ranks(2))


# The header of a file that has no sections and no segments.
ALONE = struct.pack("<16sHHIQQQIHHHHHH", b"\x7fELF\2\1\1", 2, 62, 1, 0, 0, 0, 0, 64, 0, 0, 0, 0, 0)


@test
def file_without_sections(place):
    """a file without sections is written as it stands, at 64 KB, at one byte less and more, and at 2 MB, without records"""
    file = ALONE + random.Random(1).randbytes(2_000_000)
    for size in (64, 65_535, 65_536, 65_537, 131_072, 2_000_000):
        place.write("in", file[:size])
        place.writes(SHRINK, file[:size])


@test
def sections_laid_out(place):
    """a file with a loaded section of 1.5 MB is laid out anew behind it, byte for byte, without records"""
    text = random.Random(2).randbytes(1_500_000)
    comment, other = b"made by hand\0", b"12345"

    def laid_out(at_comment, at_other, at_names, at_headers):
        loaded = Section(b".text", 4_096, text, flags=6, alignment=4_096)
        movable = [Section(b".comment", at_comment, comment), Section(b".other", at_other, other, alignment=64)]
        file = placed([loaded, *movable], at_names, at_headers)
        return file[:64] + b"kept" + file[68:]

    # the loaded section ends at 1,504,096, which is no multiple of 64
    source = bytearray(laid_out(1_504_500, 1_504_450, 1_504_700, 1_504_104))
    source[1_504_600:1_504_605] = b"a gap"
    names_end = 1_504_146 + len(names_of([b".text", b".comment", b".other"]))
    place.write("in", source)
    place.writes(SHRINK, laid_out(1_504_133, 1_504_128, 1_504_146, aligned(names_end, 8)))


def readelf(place, what, name):
    """What readelf shows of a file; of units without the places, lengths and codes, which may differ, and without the codes 0, since
    padding after a unit's tree is shown as such."""
    command = ["readelf", f"--debug-dump={what}", name]
    shown = subprocess.run(command, cwd=place.folder, stdout=subprocess.PIPE, stderr=subprocess.DEVNULL).stdout
    if what != "info":
        return shown
    changed = rb"^ *(?:Length|Abbrev Offset):.*$|Abbrev Number: \d+|<(?:0x)?[0-9a-f]+>|@ offset (?:0x)?[0-9a-f]+"
    shown = re.sub(rb"^.*: Abbrev Number: 0\n", b"", shown, flags=re.M)
    return re.sub(changed, b"", shown, flags=re.M)


def shows_the_same(place, what, lines):
    """Fails where readelf is there and shows IN and OUT to differ, or shows fewer lines than these."""
    if not shutil.which("readelf"):
        return
    shown = readelf(place, what, "in")
    if shown.count(b"\n") < lines or shown != readelf(place, what, "out"):
        raise Failure(f"readelf --debug-dump={what} shows IN and OUT to differ, or little of them")


@test
def units_written(place):
    """a file of 40,000 units, 2.5 MB, is written as is wanted, twice the same, and so again from OUT"""
    source, written = pair_of_units(40_000)
    place.write("in", source)
    records_of_units = no_ranks(40_000)
    place.writes(SHRINK, written, records_of_units)
    place.writes(["shrink", "in", "other", "its"], written, records_of_units)
    place.writes(["shrink", "out", "again", "its"], written, records_of_units)
    shows_the_same(place, "info", 400_000)


def compiled(place):
    """A program with debug information by the compiler that is there, or nothing."""
    compiler = next(filter(None, map(shutil.which, ("gcc", "clang", "cc"))), None)
    if compiler is None:
        return b""
    loop = b"int s = 0; for (int i = 0; i < n; i++) s += i * n; return s;"
    place.write("a.c", b"int sum(int n) { %s }\nint main(void) { return sum(9); }\n" % loop)
    run = subprocess.run([compiler, "-gdwarf-5", "-O2", "-o", "a.out", "a.c"], cwd=place.folder, capture_output=True)
    return place.read("a.out") if run.returncode == 0 else b""


def written_elsewhere(place, source, number):
    """OUT and CERT by a run with other names, in another folder and with another environment, each time others."""
    name = "x" * number + " ö"
    folder = place.path(f"{number}/" * number)
    os.makedirs(folder)
    for it in (name, "old out", "old cert"):
        with open(os.path.join(folder, it), "wb") as file:
            file.write(source if it == name else b"before" * number)
    words = ["shrink", os.path.join(folder, name) if number % 2 else name, "old out", "./old cert"]
    environment = {"LC_ALL": ["C", "de_DE.UTF-8", "tr_TR"][number % 3], "TZ": f"UTC+{number}", "SOME": "x" * 1_000 * number}
    how = {"cwd": folder, "env": environment, "stdin": subprocess.DEVNULL, "capture_output": True, "timeout": SECONDS}
    run = subprocess.run([place.program, *words], preexec_fn=lambda: os.umask(number), **how)
    if (run.returncode, run.stdout, run.stderr) != (0, b"", b""):
        raise Failure(f"{words}: {run}")
    return [place.read(os.path.join(folder, it)) for it in ("old out", "old cert")]


@test
def output_by_input_alone(place):
    """OUT and CERT follow from IN alone: other runs, names, folders, environments and files that were there give the same bytes"""
    sources = [pair_of_units(200)[0], drawn_file(7, 60), elf_file([(b".debug_line", line_program(drawn_lines(1 << 12)[1], -3, 12))])]
    for source in filter(None, [*sources, compiled(place)]):
        place.write("in", source)
        place.answers(SHRINK, 0, b"")
        first = [place.read(name) for name in SHRINK[2:]]
        place.answers(CHECK, 0, b"accepted\n")
        place.leaves(SHRINK, 0, b"", place.files())
        for number in range(1, 4):
            for name, found, wanted in zip(SHRINK[2:], written_elsewhere(place, source, number), first):
                if found != wanted:
                    raise Failure(f"run {number} writes another {name}, of {difference(found, wanted)}")
            shutil.rmtree(place.path(f"{number}"))


@test
def memory_wanting(place):
    """where the program gets less memory than IN has bytes the status is 6, and OUT and CERT aren't made"""
    size = 32 << 20
    place.write("in", ALONE + bytes(size))
    place.keeps(SHRINK, 6, prepare=lambda: resource.setrlimit(resource.RLIMIT_AS, (size, size)))


@test
def file_past_the_limit(place):
    """a file of 1,000 bytes more than 2^30 is refused as Limit, and OUT and CERT aren't made"""
    with open("/proc/meminfo") as file:
        free = int(re.search(r"MemAvailable:\s+(\d+) kB", file.read())[1]) << 10
    if free < 3 * LIMIT:
        raise Skipped("there are less than 3 GB of memory")
    with open(place.path("in"), "wb") as file:
        file.truncate(LIMIT + 1_000)
    place.answers(SHRINK, 3, b"refused Limit at 0\n")
    if os.listdir(place.folder) != ["in"] or os.path.getsize(place.path("in")) != LIMIT + 1_000:
        raise Failure("another file than IN is there, or IN has changed")


def pair_of_tables(count):
    """A file with so many units and tables, each table with a declaration that no entry has, and what has to be written for it."""
    table_in = uleb(2, 1) + b"\x34\0\3\x08\0\0" + uleb(129) + b"\x11\0\3\x08\0\0" + b"\0"
    table_out = b"\1\x11\0\3\x08\0\0" + b"\0"
    pair = ((uleb(129), table_in), (uleb(1), table_out))
    return [
        elf_file([
            (b".debug_info", b"".join(unit(code + b"%d\0" % number, number * len(table)) for number in range(count))),
            (b".debug_abbrev", table * count),
        ])
        for code, table in pair
    ]


@test
def many_tables(place):
    """70,000 abbreviation tables, one for each unit, are written as is wanted, and so again from OUT"""
    # readelf takes time with the square of the tables
    for count in (2_000, 70_000):
        source, written = pair_of_tables(count)
        place.write("in", source)
        place.writes(SHRINK, written, no_ranks(count))
        place.writes(["shrink", "out", "again", "its"], written, no_ranks(count))
        if count < 10_000:
            shows_the_same(place, "info", 7 * count)


# The tables of directories and files of a line number program: /, a and b.
FILES = b"\1\1\x08\1/\0\1\1\x08\2a\0b\0"
COUNTS = bytes([0, 1, 1, 1, 1, 0, 0, 0, 1, 0, 0, 1])


def line_program(opcodes, line_base, line_range):
    head = bytes([1, 1, 1, line_base & 255, line_range, 13]) + COUNTS + FILES
    return struct.pack("<IHBBI", 8 + len(head) + len(opcodes), 5, 8, 0, len(head)) + head + opcodes


def drawn_lines(count):
    """So many rows in sequences of 1,024, as pairs of an address and a line, with None as the line of an end row, and opcodes that
    give them: each number is padded, and no special opcode is used."""
    rng, rows, opcodes = random.Random(3), [], []
    steps = [(rng.randrange(40), rng.randrange(-4, 12)) for _ in range(1_023)]
    pieces = [b"\2" + uleb(address, 1) + b"\3" + sleb(line) + b"\1" for address, line in steps]
    block = b"".join(pieces) + b"\2\x90\0" + b"\0\1\1"
    for sequence in range(count // 1_024):
        address, line = 0x400000 + 0x10000 * sequence, 1_000
        opcodes.append(b"\0\x09\2" + struct.pack("<Q", address) + b"\3" + sleb(999) + block)
        for address_step, line_step in steps:
            address, line = address + address_step, line + line_step
            rows.append((address, line))
        rows.append((address + 16, None))
    return rows, b"".join(opcodes)


def number_at(bytes_, at, signed=False):
    """The LEB128 number that stands there, and where it ends."""
    value = shift = 0
    while True:
        byte = bytes_[at]
        value, shift, at = value | (byte & 127) << shift, shift + 7, at + 1
        if byte < 128:
            return value - (1 << shift) * (signed and byte >> 6), at


def rows_of(program):
    """The rows of a program with the opcode_base 13 and no opcodes for other columns than address and line."""
    line_base, line_range = struct.unpack_from("<bB", program, 15)
    at, rows, address, line = 12 + struct.unpack_from("<I", program, 8)[0], [], 0, 1
    while at < len(program):
        code, at = program[at], at + 1
        if code >= 13:
            address, line = address + (code - 13) // line_range, line + line_base + (code - 13) % line_range
            rows.append((address, line))
        elif code == 1:
            rows.append((address, line))
        elif code == 2:
            step, at = number_at(program, at)
            address += step
        elif code == 3:
            step, at = number_at(program, at, signed=True)
            line += step
        elif code == 8:
            address += 242 // line_range
        elif code == 9:
            address, at = address + struct.unpack_from("<H", program, at)[0], at + 2
        elif program[at - 1 : at + 2] == b"\0\x09\2":
            address, at = struct.unpack_from("<Q", program, at + 2)[0], at + 10
        elif program[at - 1 : at + 2] == b"\0\1\1":
            rows.append((address, None))
            at, address, line = at + 2, 0, 1
        else:
            raise Failure(f"the opcode {code} wasn't asked for")
    return rows


def one_run(number):
    """The record of a line number program that has this number for all pairs of line_base and line_range."""
    return bytes([LINES]) + uleb(PAIRS) + uleb(number)


@test
def program_without_rows(place):
    """a line number program without rows is written as it stands, and its record, if any, has one run with the number 0"""
    source = elf_file([(b".debug_line", line_program(b"", -5, 14))])
    place.write("in", source)
    place.writes(SHRINK, source, place.of_lines(one_run(0)))


# DW_LNS_advance_line by 1,000 and DW_LNS_copy. Special opcodes advance the line by at most 369, so that under each pair the operand
# has two bytes: no pair makes the step shorter.
EQUAL_STEP = b"\x03\xe8\x07\x01"


@test
def equal_steps(place):
    """a line number program of 2^20 rows with equal steps is written as it stands, and its record, if any, has one run with the number 1"""
    source = elf_file([(b".debug_line", line_program(EQUAL_STEP * ((1 << 20) - 1) + b"\0\1\1", -3, 12))])
    place.write("in", source)
    place.writes(SHRINK, source, place.of_lines(one_run(1)))


def check_record(certificate, rows):
    """Fails where a certificate isn't one record of a line number program with these rows, in which no pair has a number above the
    count of different steps."""
    found = list(records(certificate))
    kinds = [record.kind for record in found]
    if kinds != [LINES]:
        raise Failure(f"CERT has records of the kinds {kinds}")
    steps, address, line = set(), 0, 1
    for next_address, next_line in rows:
        steps.add((next_address - address, None if next_line is None else next_line - line))
        address, line = (0, 1) if next_line is None else (next_address, next_line)
    counts = {0, len(steps), *(1 << power for power in range(len(steps).bit_length()) if 1 << power < len(steps))}
    others = {number for _, number in found[0].numbers} - counts
    if others:
        raise Failure(f"CERT has the numbers {others} for pairs, of a program with {len(steps)} different steps")


@test
def many_rows(place):
    """a line number program of 2^20 rows keeps its rows in half the bytes, or for packages its bytes, and OUT is written as it stands"""
    rows, opcodes = drawn_lines(1 << 20)
    before = line_program(opcodes, -3, 12)
    source = elf_file([(b".debug_line", before)])
    place.write("in", source)
    if place.is_for_packages():
        place.writes(SHRINK, source)
        place.keeps(CHECK, 0, b"accepted\n")
        place.writes(["shrink", "out", "again", "its"], source)
        return
    place.answers(SHRINK, 0, b"")
    written = place.read("out")
    size = 4 + struct.unpack_from("<I", written, 64)[0]
    after = written[64 : 64 + size]
    if written != elf_file([(b".debug_line", after)]) or size > len(before) // 2:
        raise Failure(f"OUT has a program of {size} bytes, or something else")
    if line_program(after[30 + len(FILES) :], *struct.unpack_from("<bB", after, 15)) != after or rows_of(after) != rows:
        raise Failure("the header or the rows differ")
    certificate = place.read("cert")
    check_record(certificate, rows)
    place.writes(["shrink", "out", "again", "its"], written, certificate[len(MAGIC) :])
    shows_the_same(place, "decodedline", len(rows))


def for_packages(function, program):
    """A test of the program for debug packages, which has the same promises."""

    @functools.wraps(function)
    def again(place):
        return function(Place(program, place.folder, MAGIC_FOR_PACKAGES))

    again.__doc__ = f"for packages, {function.__doc__}"
    return again


def without_packages(place):
    """the same of the program for packages"""
    raise Skipped(f"{BUILT_FOR_PACKAGES} isn't there")


def main():
    parser = argparse.ArgumentParser(description=__doc__, formatter_class=argparse.RawDescriptionHelpFormatter)
    parser.add_argument("program", nargs="?", default=BUILT)
    parser.add_argument("--packages", metavar="PROGRAM")
    words = parser.parse_args()
    program = executable(words.program)
    if words.packages or os.path.exists(BUILT_FOR_PACKAGES):
        packages = executable(words.packages or BUILT_FOR_PACKAGES)
        test.functions += [for_packages(function, packages) for function in test.functions]
    else:
        test(without_packages)
    return test.run(lambda folder: Place(program, folder))


if __name__ == "__main__":
    sys.exit(main())
