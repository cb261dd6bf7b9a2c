#!/usr/bin/env python3
"""Asks each reader of debug information that the machine has what it shows of a file before and after it was written anew, and prints
a table in Markdown: the reader with its version, the files of which it shows the same, and what it no longer reads or shows otherwise.

  bench/consumers.py [--program PROGRAM] [--seconds N] [--jobs N] [--only WORD] [--differences N] FILE ..

Both files have the same name in two folders, so that a path tells nothing. Offsets in debug sections and the forms of attributes are
left out, since they must differ. A reader that takes longer than N seconds (300) is ended and counted so. A reader runs each file that
ends by itself within ten seconds without words and without input, if it is one that runs programs: the file as it was twice, and what
differs between these two runs isn't compared. With --only come the readers with WORD in their names, and with --differences the first
N lines that differ of each file, after the table. The exit status is 0 also where readers show something else: the table says it.

One reader, the library libbacktrace, is part of programs: it is asked by small ones that gcc compiles with -fsanitize=address.
"""
import argparse
import collections
import concurrent.futures
import os
import re
import shutil
import signal
import subprocess
import sys
import tempfile
from typing import Callable, Dict, List, NamedTuple, Tuple

import compare_gdb
from compare_lists import lists_of, view_pairs
from compare_units import described
from shrinking import compiled, shrink

TOP = os.path.dirname(os.path.dirname(os.path.abspath(__file__)))
ADDRESSES, FUNCTIONS, TYPES, STOPS = 2000, 150, 20, 12
SAMPLE = """#include <stdlib.h>
static inline int touch(const int *p, int i) { return p[i]; }
__attribute__((noinline)) static int walk(const int *p, int n) { int s = 0; for (int i = 0; i < n; i++) s += touch(p, i); return s; }
int main(int argc, char **argv) { int *p = calloc(4, sizeof *p); return walk(p, 4 + argc) != 0; }
"""
SAMPLE_BUILDS = [(f"{level}", ["gcc", level, "-fsanitize=address"]) for level in ("-O0", "-O1", "-O2")]
# walks over all entries, references and rows of a file with the library pyelftools
WALK = """import sys
from elftools.elf.elffile import ELFFile
dwarf = ELFFile(open(sys.argv[1], 'rb')).get_dwarf_info()
for unit in dwarf.iter_CUs():
    entries = list(unit.iter_DIEs())
    numbers = {entry.offset: number for number, entry in enumerate(entries)}
    for entry in entries:
        print(entry.tag)
        for name, value in entry.attributes.items():
            if value.form.startswith('DW_FORM_ref'):
                print(name, numbers.get(entry.get_DIE_from_attribute(name).offset))
            else:
                print(name, '' if value.form in ('DW_FORM_sec_offset', 'DW_FORM_exprloc') else value.value)
    program = dwarf.line_program_for_CU(unit)
    for row in program.get_entries() if program else []:
        if row.state:
            print(row.state.address, row.state.file, row.state.line, row.state.column, row.state.is_stmt, row.state.end_sequence)
"""


class TooLong(Exception):
    """A reader took longer than it may."""


class Fails(Exception):
    """A reader said that it can't read a file, or ended by a signal."""


class Reader(NamedTuple):
    """A reader: its name, the program that it needs, the words that make that tell its version, and what it shows of a file; whether it
    runs the file, is part of the small programs, says nothing where all is well, and begins each line with an address, so that only
    addresses that it shows of both files are compared."""
    name: str
    tool: str
    version: List[str]
    shown: Callable[[str], List[str]]
    runs: bool = False
    sample: bool = False
    silent: bool = False
    keyed: bool = False


def said(words, path="", text="", failures=True):
    """What a command says on standard output of the file at a path, which it gets as ./NAME for the word FILE."""
    words = [word.replace("FILE", "./" + os.path.basename(path)) for word in words]
    run = subprocess.Popen(words, cwd=os.path.dirname(path) or None, stdin=subprocess.PIPE, stdout=subprocess.PIPE, stderr=subprocess.PIPE,
                           text=True, errors="replace", start_new_session=True)
    try:
        out, wrong = run.communicate(text)
    except TooLong:
        try:
            os.killpg(run.pid, signal.SIGKILL)
        except ProcessLookupError:
            pass  # it has just ended
        run.wait()
        raise
    if failures and run.returncode != 0:
        told = [line for line in (wrong or out).splitlines() if line.strip()]
        raise Fails(f"status {run.returncode}: " + (told[-1] if told else "nothing said"))
    return out


def both(words, path, text="", failures=True):
    """The same with what the command says on standard error."""
    return said(["sh", "-c", 'exec "$@" 2>&1', "sh", *words], path, text, failures)


# what a file has: these are asked of the file as it was, which stands beside the other in the folder 'old'

def original(path):
    return os.path.join(os.path.dirname(os.path.dirname(path)), "old", os.path.basename(path))


def addresses(path):
    """Addresses in .text, evenly chosen."""
    found = re.search(r"\] \.text\s+\S+\s+([0-9a-f]+) [0-9a-f]+ ([0-9a-f]+)", said(["readelf", "-SW", "FILE"], path))
    start, size = int(found[1], 16), int(found[2], 16)
    return range(start, start + size, max(1, size // ADDRESSES))


def functions(path):
    """Addresses and names of functions, without those that a compiler adds, in the order of addresses."""
    found = [line.split() for line in said(["nm", "--defined-only", "FILE"], path).splitlines()]
    kept = [(int(f[0], 16), f[2]) for f in found if len(f) == 3 and f[1] in "tTW" and "." not in f[2] and f[2] not in compare_gdb.ADDED]
    return sorted({at: name for at, name in kept if name[0] != "_" or name.startswith("_Z")}.items())


def chosen(things, count):
    return things[::max(1, -(-len(things) // count))]


def remembered(find):
    """A list of words that is found once for each file, and kept beside it."""
    def known(path):
        place = f"{original(path)}.{find.__name__}"
        if not os.path.exists(place):
            words = find(path)
            with open(f"{place}.{os.getpid()}", "w") as file:
                file.write("\n".join(words))
            os.rename(f"{place}.{os.getpid()}", place)
        with open(place) as file:
            return file.read().splitlines()
    return known


@remembered
def types(path):
    """Names of types with debug information, by gdb, of which there is none where there is no gdb."""
    if not shutil.which("gdb"):
        return []
    told = both(["gdb", "-nx", "-batch", "-ex", "info types -q", "FILE"], original(path))
    return chosen(sorted(set(re.findall(r"^\d+:\s+(?:typedef .*?)?((?:struct |union |enum )?\w+);$", told, re.M))), TYPES)


@remembered
def stops(path):
    """Names of functions that a run reaches, by gdb; main alone where there is no gdb."""
    if not shutil.which("gdb"):
        return ["main"]
    names = [name for _, name in functions(original(path))]
    found = compare_gdb.debug(os.path.dirname(original(path)), os.path.basename(path), [], chosen(names, 150), ["info symbol $pc"])
    return reached(found, names)


def reached(told, names):
    """Of the names those at which gdb told of a stop, in the order of stops."""
    found = re.findall(r"^(\w+)(?:\(.*\))?(?: const)?(?: \+ \d+)? in section (?!.* of /(?:usr/)?lib)", told, re.M)
    return chosen([name for name in found if name in names], STOPS)


# the readers

def gdb(path, *commands):
    """What gdb says that doesn't run the file."""
    told = both(["gdb", "-nx", "-batch", *(word for command in commands for word in ("-ex", command)), "FILE"], path, failures=False)
    if broken := re.search(r"^.*(?:Dwarf Error|DWARF Error|internal-error).*", told, re.M):
        raise Fails(re.sub(r" \[in module .*", "", broken[0]))
    return told


def gdb_at_rest(path):
    commands = ["set pagination off", "set width 0", "info functions -q -n", "info variables -q -n", "info types -q"]
    commands += [f"info scope *{at}" for at, _ in chosen(functions(path), FUNCTIONS)]
    commands += [f"info line *{at}" for at in chosen(addresses(path), 200)] + [f"ptype {name}" for name in types(path)]
    # an entry that sets the base of a location list is shown as one, and means nothing by itself
    told = re.sub(r"Base address 0x[0-9a-f]+ +", "", gdb(path, *commands))
    # of an expression gdb shows the place of each operation, and that of the entry that it names
    return re.sub(r" \[0x[0-9a-f]+\]>", ">", re.sub(r"^ +\d+: DW_OP_", "DW_OP_", told, flags=re.M)).splitlines()


def gdb_index(path):
    """The size of gdb's own index, which tells how many units, addresses and names it found."""
    gdb(path, "save gdb-index .")
    made = path + ".gdb-index"
    if not os.path.exists(made):
        raise Fails("no index is written")
    size = os.path.getsize(made)
    os.remove(made)
    return [f"{size} bytes"]


def gdb_running(path):
    gdb(path, "list")
    commands = ["backtrace 12", "info args", "info locals"]
    told = compare_gdb.stops(compare_gdb.debug(os.path.dirname(path), os.path.basename(path), [], stops(path), commands))
    return [line for stop in told for line in ["stop", *stop]]


def lldb(tool, commands, path):
    words = [tool, "--no-lldbinit", "--batch", *(word for command in commands for word in ("-o", command)), "FILE"]
    told = both(words, path)
    if broken := re.search(r"^warning: .*(unsupported .*)", told, re.M):
        raise Fails(broken[1])
    told = re.sub(r"0x7fff[0-9a-f]{8,12}\b|\b(uid|id) ?= ?\{0x[0-9a-f]+\}", r"\1", told)
    told = told.replace(os.path.dirname(os.path.realpath(path)), "").replace(os.path.dirname(path), "")
    return [line for line in told.splitlines() if not re.match(r"Process \d+|\(lldb\)|Waiting for background", line)]


def lldb_at_rest(tool):
    def shown(path):
        commands = [f"image lookup -v -a {at}" for at, _ in chosen(functions(path), FUNCTIONS)]
        commands += [f"image lookup -a {at}" for at in chosen(addresses(path), 200)]
        commands += ["type lookup " + name.split()[-1] for name in types(path)]
        lines = []
        for first in range(0, len(commands), 25):
            try:
                lines += lldb(tool, commands[first:first + 25], path)
            except Fails as why:
                if "status -" not in str(why):
                    raise
                lines.append("a signal ended it")
        return lines
    return shown


def lldb_running(tool):
    def shown(path):
        names = stops(path)
        commands = [f"breakpoint set -o true -n {name}" for name in names] + ["process launch -i /dev/null -o /dev/null -e /dev/null"]
        return lldb(tool, commands + ["bt 12", "frame variable", "continue"] * len(names), path)
    return shown


def symbols(words):
    """A reader that is given addresses on standard input. eu-addr2line ends with 1 where it doesn't know one."""
    def shown(path):
        return said(words, path, "".join(f"{at:#x}\n" for at in addresses(path)), failures=words[0] != "eu-addr2line").splitlines()
    return shown


def plain(words, *drops):
    """A reader that says everything of a file; what the patterns match is dropped."""
    def shown(path):
        told = said(words, path).replace(os.path.dirname(path), "")
        for drop in drops:
            told = re.sub(drop, "", told, flags=re.M)
        return told.splitlines()
    return shown


def readelf_units(path):
    lines, lost = described(path)
    return [f"{lost} references to nothing", *lines]


def counted(told, message):
    """How often each message stands there, with its numbers left out."""
    counts: Dict[str, int] = {}
    for found in re.findall(message, told, re.M):
        kind = re.sub(r"0x[0-9a-fA-F]+|<[0-9a-f]+>|\b\d+\b", "N", found).strip()
        counts[kind] = counts.get(kind, 0) + 1
    return [f"{kind}: {count}" for kind, count in sorted(counts.items())]


def verify(tool):
    return lambda path: counted(both([tool, "--verify", "FILE"], path, failures=False), r"^error: .*")


def lists(tool):
    def shown(path):
        return [f"{name} {item}" for _, name, items in lists_of(said([tool, "--debug-info", "FILE"], path).splitlines()) for item in items]
    return shown


def libdwarf_checks(path):
    told = both(["dwarfdump", "-ka", "FILE"], path, failures=False)
    if broken := re.search(r"^.*\bERROR:.*", told, re.M):
        raise Fails(broken[0])
    found = re.findall(r"^(\w+) +\d+ +(\d+)$", told, re.M)
    return [f"{name}: {errors} errors" for name, errors in found] + counted(told, r"^\*\*\* DWARF CHECK: .*")


# the lines of eu-readelf: an entry, an attribute with its form, an operation of an expression
EU_ENTRY = re.compile(r"^ \[ *([0-9a-f]+)\] +(\w+) +abbrev: \d+$")
EU_ATTRIBUTE = re.compile(r"^ +(\w+) +\((\w+)\) ?(.*)$")
EU_PLACE = re.compile(r"[\[{<] *([0-9a-f]+)[\]}>]")


def eu_units(path):
    """The entries and attributes that eu-readelf shows, with offsets replaced by the number of what stands there."""
    lines = said(["eu-readelf", "--debug-dump=info", "FILE"], path).splitlines()
    numbers = {int(entry[1], 16): number for number, entry in enumerate(filter(None, map(EU_ENTRY.match, lines)))}
    out = []

    def number(found):
        return f"entry {numbers.get(int(found[1], 16), 'nowhere')}"

    for line in lines:
        if entry := EU_ENTRY.match(line):
            out.append(entry[2])
        elif attribute := EU_ATTRIBUTE.match(line):
            name, form, value = attribute.groups()
            if form.startswith("ref"):
                value = EU_PLACE.sub(number, value)
            elif form in ("sec_offset", "loclistx", "rnglistx") or form == "exprloc":
                value = ""
            # a constant is shown twice where its form tells no sign
            out.append(f"{name} " + re.sub(r"^(-?\d+) \(\1\)$", r"\1", value))
        elif operation := re.match(r"^ +\[ *\d+\] (\w+.*)", line):
            out.append(EU_PLACE.sub(number, operation[1]) if re.match(r"(const_type|regval_type|deref_type|convert|reinterpret|implicit_pointer|GNU_|call)", operation[1])
                       else re.sub(r"^(bra|skip) .*", r"\1", operation[1]))
    return out


def valgrind(words, path):
    """What valgrind says; one that gives a file up says so."""
    told = both(words, path, failures=False)
    if broken := re.search(r"debuginfo reader: (.*)|[Ww]arning: (.*DWARF.*)", told):
        raise Fails(broken[1] or broken[2])
    return told


def callgrind(path):
    """The addresses of the file itself that a run executes, each with its file, function and line, as valgrind tells them."""
    made = path + ".callgrind"
    plainly = ["--dump-line=yes", "--dump-instr=yes", "--compress-strings=no", "--compress-pos=no"]
    valgrind(["valgrind", "--tool=callgrind", *plainly, "--callgrind-out-file=" + made, "FILE"], path)
    place, found = {}, set()
    with open(made, errors="replace") as file:
        for line in file:
            if name := re.match(r"(ob|fl|fi|fe|fn)=(.*)", line):
                place["fl" if name[1] in ("fi", "fe") else name[1]] = name[2]
            elif (cost := re.match(r"(0x[0-9a-f]+) (\d+) \d+$", line)) and place.get("ob", "").endswith(os.path.basename(path)):
                function = re.sub(r"'\d+$", "", place["fn"])
                found.add(f"{cost[1]} {place['fl']} {function} line {cost[2]}")
    os.remove(made)
    return sorted(found)


def memcheck(path):
    told = re.sub(r"==\d+== ", "", valgrind(["valgrind", "--read-var-info=yes", "FILE"], path))
    return [line for line in told.splitlines() if re.search(r"arning|DWARF|nhandled|parse", line)]


def perf_probe(path):
    names = chosen([name for _, name in functions(path) if name[0] != "_"], 6)
    return [line for name in names for option in ("-L", "-V") for line in both(["perf", "probe", "-x", "FILE", option, name], path, failures=False).splitlines()]


def abidiff(path):
    return said(["abidiff", original(path), "FILE"], path).splitlines()


def abi_dumper(path):
    """How many types and symbols it writes down; their numbers are offsets."""
    out = path + ".abi"
    both(["abi-dumper", "FILE", "-o", out, "-lver", "1", "-all"], path)
    with open(out, errors="replace") as file:
        told = file.read()
    os.remove(out)
    return sorted(re.findall(r"^ *('(?:Name|Line|Source|Size|ShortName|MnglName|offset|name|NameSpace)' => .*)", told, re.M))


def debugedit(path):
    out = path + ".sources"
    both(["debugedit", "-l", out, "FILE"], path)
    with open(out, errors="replace") as file:
        told = file.read().split("\0")
    os.remove(out)
    return told


def dwz(path):
    """Whether dwz takes a file."""
    out = path + ".dwz"
    both(["dwz", "-o", out, "FILE"], path)
    os.remove(out)
    return ["takes it"]


def sanitizer(path):
    told = both(["FILE"], path, failures=False)
    return re.findall(r"^    #\d+ 0x[0-9a-f]+ (in (?!__libc_|_start).*)", told, re.M)


def llvm(version):
    return [
        Reader(f"llvm-dwarfdump {version} --verify", f"llvm-dwarfdump-{version}", ["--version"], verify(f"llvm-dwarfdump-{version}"), silent=True),
        Reader(f"llvm-dwarfdump {version}, ranges and locations", f"llvm-dwarfdump-{version}", ["--version"], lists(f"llvm-dwarfdump-{version}"), silent=True),
        Reader(f"llvm-symbolizer {version}", f"llvm-symbolizer-{version}", ["--version"], symbols([f"llvm-symbolizer-{version}", "--inlines", "--obj=FILE"])),
        Reader(f"lldb {version}, at rest", f"lldb-{version}", ["--version"], lldb_at_rest(f"lldb-{version}")),
        Reader(f"lldb {version}, running", f"lldb-{version}", ["--version"], lldb_running(f"lldb-{version}"), runs=True),
    ]


READERS = [
    Reader("gdb, at rest", "gdb", ["--version"], gdb_at_rest),
    Reader("gdb, running", "gdb", ["--version"], gdb_running, runs=True),
    Reader("gdb, its index", "gdb", ["--version"], gdb_index),
    *llvm(14),
    *llvm(19),
    Reader("readelf, units and entries", "readelf", ["--version"], readelf_units),
    Reader("readelf, line tables", "readelf", ["--version"], plain(["readelf", "-wNL", "FILE"])),
    Reader("readelf, view pairs", "readelf", ["--version"], view_pairs, silent=True),
    Reader("addr2line", "addr2line", ["--version"], symbols(["addr2line", "-f", "-i", "-a", "-e", "FILE"])),
    Reader("objdump -dl", "objdump", ["--version"], plain(["objdump", "-dl", "--no-show-raw-insn", "FILE"])),
    Reader("eu-readelf, units and entries", "eu-readelf", ["--version"], eu_units),
    Reader("eu-readelf, line tables", "eu-readelf", ["--version"], plain(["eu-readelf", "--debug-dump=decodedline", "FILE"], r"^ CU \[\w+\]", r" at offset 0x\w+")),
    Reader("eu-addr2line", "eu-addr2line", ["--version"], symbols(["eu-addr2line", "-f", "-i", "-a", "-e", "FILE"])),
    Reader("perf probe", "perf", ["--version"], perf_probe),
    Reader("pahole", "pahole", ["--version"], plain(["pahole", "-F", "dwarf", "-E", "FILE"])),
    Reader("pfunct", "pfunct", ["--version"], plain(["pfunct", "-P", "FILE"])),
    Reader("abidw", "abidw", ["--version"], plain(["abidw", "--no-corpus-path", "FILE"], r"(?<=artificial&gt;-)[0-9a-f]+")),
    Reader("abidiff", "abidiff", ["--version"], abidiff, silent=True),
    Reader("abi-dumper", "abi-dumper", ["-dumpversion"], abi_dumper),
    Reader("dwarfdump -ka (libdwarf)", "dwarfdump", ["-V"], libdwarf_checks),
    Reader("dwarf2sources (gimli)", "dwarf2sources", ["--version"], plain(["dwarf2sources", "FILE"])),
    Reader("pyelftools", "/usr/bin/python3", ["-c", "import elftools; print(elftools.__version__)"], plain(["/usr/bin/python3", "-c", WALK, "FILE"])),
    Reader("debugedit -l", "debugedit", ["--version"], debugedit),
    Reader("dwz", "dwz", ["--version"], dwz),
    Reader("valgrind, lines", "valgrind", ["--version"], callgrind, runs=True, keyed=True),
    Reader("valgrind, variables", "valgrind", ["--version"], memcheck, runs=True, silent=True),
    Reader("libbacktrace (AddressSanitizer of gcc)", "gcc", ["-dumpfullversion"], sanitizer, sample=True),
]


def version(reader):
    """The version that the reader's program tells, or nothing where the machine doesn't have it."""
    if not shutil.which(reader.tool):
        return ""
    told = subprocess.run([reader.tool, *reader.version], capture_output=True, text=True, errors="replace")
    found = re.search(r"\d+(?:[.-]\d+)+|\b20\d{6}\b", told.stdout + told.stderr)
    return found[0] if found and told.returncode in (0, 1) else ""


def answered(reader, path, seconds):
    """'shown' with lines, 'fails' with the message, or 'too long'."""
    def late(number, frame):
        raise TooLong

    signal.signal(signal.SIGALRM, late)
    signal.alarm(seconds)
    try:
        return "shown", reader.shown(path)
    except (TooLong, subprocess.TimeoutExpired):
        return "too long", []
    except Fails as why:
        return "fails", [str(why).replace(os.path.dirname(path), "").replace("./" + os.path.basename(path), "FILE")]
    finally:
        signal.alarm(0)


def unsteady(reader, old, lines, seconds):
    """The numbers of the lines that a second run of the same file shows otherwise."""
    copy = old.replace(os.sep + "old" + os.sep, os.sep + "cop" + os.sep)
    again = answered(reader, copy, seconds)[1]
    return {number for number, line in enumerate(lines) if again[number:number + 1] != [line]} if len(again) == len(lines) else set()


def differing(before, after, left_out) -> List[Tuple[str, str]]:
    """The lines that differ, in pairs; where one says more lines, those that the other doesn't say, alone."""
    if len(before) == len(after):
        return [(a, b) for number, (a, b) in enumerate(zip(before, after)) if a != b and number not in left_out]
    gone, come = (collections.Counter(one) - collections.Counter(other) for one, other in ((before, after), (after, before)))
    return [(line, "") for line in gone.elements()] + [("", line) for line in come.elements()]


def compare(number, old, new, seconds):
    """What a reader makes of a file: 'same' or words that say what it no longer does, the lines that differ, and how many there were."""
    reader = READERS[number]
    before = answered(reader, old, seconds)
    if before[0] == "too long":
        return "takes too long before, not asked after", [], 0
    after = answered(reader, new, seconds)
    if before[0] == "fails":
        return f"fails before: {before[1][0][:120]}; " + ("after alike" if after == before else f"after: {after[0]} {''.join(after[1])[:120]}"), [], 0
    if after[0] != "shown":
        return after[0] + "".join(f": {why[:160]}" for why in after[1]), [], 0
    if reader.keyed:
        before, after = shared(before[1], after[1])
    left_out = unsteady(reader, old, before[1], seconds) if reader.runs and before != after else set()
    pairs = differing(before[1], after[1], left_out)
    if not pairs:
        return "same" if before[1] or reader.silent else "shows nothing, before and after", [], 0
    if reader.name == "gdb, running" and len(before[1]) == len(after[1]) and all(compare_gdb.same_line(*pair) for pair in pairs):
        return "shows no line numbers in some frames", pairs, len(before[1])
    return "differs", pairs, max(len(before[1]), len(after[1]))


def shared(before, after):
    """The answers again, of the lines that begin with an address those that the other has too."""
    words = [{line.split()[0] for line in lines} for lines in (before, after)]
    return tuple(("shown", [line for line in lines if line.split()[0] in words[0] & words[1]]) for lines in (before, after))


def ends(path):
    """Whether a file runs and ends by itself."""
    try:
        run = subprocess.run([path], stdin=subprocess.DEVNULL, stdout=subprocess.DEVNULL, stderr=subprocess.DEVNULL, timeout=10, cwd=os.path.dirname(path))
        return run.returncode >= 0
    except (OSError, subprocess.TimeoutExpired):
        return False


def prepared(program, files, folder):
    """The files that the program takes, as pairs of paths in the folders 'old' and 'new', with a copy in 'cop'."""
    for name in ("old", "new", "cop"):
        os.makedirs(os.path.join(folder, name), exist_ok=True)
    pairs = []
    for path in files:
        old, new, copy = (os.path.join(folder, name, os.path.basename(path)) for name in ("old", "new", "cop"))
        answer, why = shrink(program, path, new)
        if answer != "written":
            print(f"{os.path.basename(path)}: {answer}: {why}", file=sys.stderr)
            continue
        shutil.copy(path, old)
        shutil.copy(path, copy)
        os.chmod(new, 0o755)
        pairs.append((old, new))
    return pairs


def row(reader, told, outcomes):
    """A line of the table: of each file the words that say what was found, and the lines that differ."""
    kinds: Dict[str, List[str]] = {}
    for path, (words, pairs, lines) in outcomes:
        count = f": {len(pairs):,} of {lines:,} lines" if pairs else ""
        kinds.setdefault(words, []).append(os.path.basename(path) + count)
    same = len(kinds.pop("same", []))
    cells = "; ".join(f"{words} ({', '.join(names)})" for words, names in kinds.items()).replace("|", "\\|")
    return f"| {reader.name}, {told} | {same} of {len(outcomes)} | {cells} |"


def main():
    parser = argparse.ArgumentParser(description=__doc__.split("\n")[0])
    parser.add_argument("--program", default=os.path.join(TOP, "crates/shrink_app/out/shrink_app"))
    parser.add_argument("--seconds", type=int, default=300)
    parser.add_argument("--jobs", type=int, default=1)
    parser.add_argument("--only", default="")
    parser.add_argument("--differences", type=int, default=0)
    parser.add_argument("files", nargs="+")
    options = parser.parse_args()
    with tempfile.TemporaryDirectory() as folder, concurrent.futures.ProcessPoolExecutor(options.jobs) as pool:
        pairs = prepared(options.program, options.files, folder)
        samples = prepared(options.program, compiled(folder, "sample.c", SAMPLE, SAMPLE_BUILDS), folder) if shutil.which("gcc") else []
        ending = [pair for pair in pairs if ends(pair[0])]
        asked, missing = [], []
        for number, reader in enumerate(READERS):
            if options.only not in reader.name:
                continue
            if not (told := version(reader)):
                missing.append(reader.name)
                continue
            files = samples if reader.sample else ending if reader.runs else pairs
            asked.append((reader, told, [(old, pool.submit(compare, number, old, new, options.seconds)) for old, new in files]))
        print("| reader | files the same | what it no longer reads or shows otherwise |\n|---|---:|---|")
        for reader, told, waiting in asked:
            print(row(reader, told, [(path, future.result()) for path, future in waiting]), flush=True)
        for reader, _, waiting in asked:
            for path, future in waiting:
                for before, after in future.result()[1][:options.differences]:
                    print(f"{reader.name}: {os.path.basename(path)}: {before!r} became {after!r}")
    print(f"\n{len(pairs)} of {len(options.files)} files were written, and {len(ending)} of these end by themselves.")
    if missing:
        print(f"Not on this machine: {', '.join(missing)}.")


if __name__ == "__main__":
    main()
