#!/usr/bin/env python3
"""Compiles C++ and C with gcc and clang so that they have range lists and location lists, runs the program on the result, and compares
the ranges and the locations with their expressions that llvm-dwarfdump shows of each entry before and after, and the view pairs that
readelf shows. (What readelf shows of the lists themselves doesn't help: version 2.40 reads offsets without the base address of their
unit.) Of an operation that llvm-dwarfdump
doesn't decode, only the entry that it names is compared, and not what stands behind it. Version 14 takes the index of a DW_AT_low_pc of
DW_FORM_addrx1 to addrx4 for the base address of the unit, and so shows other addresses where that form was chosen.

  bench/compare_lists.py [--program PROGRAM] [FILE ..]

A FILE is an ELF file that is taken as it is; without one, small programs are compiled. A file that the program refuses is counted
and its message printed. The last lines give the sizes and count the files; the exit status is 1 where something differs.
"""
import argparse
import os
import re
import subprocess
import sys
import tempfile

from compare_units import size
from shrinking import compiled, shrink

TOP = os.path.dirname(os.path.dirname(os.path.abspath(__file__)))

SOURCES = {
    "templates.cc": """#include <algorithm>
#include <map>
#include <string>
#include <vector>
template <class T> T most(const std::vector<T> &all) { T m{}; for (const T &x : all) m = std::max(m, x); return m; }
static std::map<std::string, int> counts;
static int count(const std::string &name) { return ++counts[name]; }
int main(int argc, char **argv) {
    std::vector<int> all; std::vector<double> more;
    for (int i = 0; i < argc; i++) { all.push_back(count(argv[i])); more.push_back(i / 3.0); }
    std::sort(all.begin(), all.end());
    return most(all) + (int)most(more);
}
""",
    "sections.c": """static int cold(int n) { return n * 3; }
int warm(int n) { int sum = 0; for (int i = 0; i < n; i++) { int part = i * n; sum += part > 7 ? cold(part) : part; } return sum; }
__attribute__((cold)) int rare(int n) { return warm(n) - 1; }
int main(int argc, char **argv) { if (argc > 9) return rare(argc); return warm(argc); }
""",
}

COMPILERS = [
    ("gcc", "g++", ["-g1", "-O2"]),
    ("gcc", "g++", ["-g1", "-O1", "-ffunction-sections"]),
    ("gcc", "g++", ["-g1", "-O0"]),
    ("clang-14", "clang++-14", ["-g1", "-O2"]),
    ("clang-14", "clang++-14", ["-g1", "-O1", "-ffunction-sections"]),
    ("clang-14", "clang++-14", ["-g1", "-O0"]),
    ("gcc", "g++", ["-g", "-O2"]),
    ("gcc", "g++", ["-g", "-O2", "-gno-variable-location-views"]),
    ("clang-14", "clang++-14", ["-g", "-O2"]),
]
ENTRY = re.compile(r"^0x([0-9a-f]+):")
ATTRIBUTE = re.compile(r"^\s+(DW_AT_\w+)")
# an address range, and behind it the operations of a location
ITEM = re.compile(r"(\[0x[0-9a-f]+, 0x[0-9a-f]+\)|<default>)(.*)$")
# an operation that names an entry by its place
NAMING = re.compile(r"(DW_OP_(?:GNU_)?(?:convert|reinterpret|const_type|regval_type|deref_type|xderef_type|call2|call4|call_ref|implicit_pointer|parameter_ref|variable_value)\b[^,]*?)0x([0-9a-f]{8,})")
# DW_OP_implicit_pointer, which version 14 doesn't decode: the operation and the place of the entry as bytes
UNDECODED = re.compile(r"(decoding error> a0 )((?:[0-9a-f]{2} ){4}).*")
# other operations that it doesn't decode, in which a place of an entry may stand as bytes
UNKNOWN = re.compile(r"decoding error> (?!a0).*")
# two view numbers, as readelf shows them before their list
VIEWS = re.compile(r"^\s+[0-9a-f]+ (v[0-9a-f]+ v[0-9a-f]+) location view pair$", re.M)


def dumped(path):
    run = subprocess.run(["llvm-dwarfdump-14", "--debug-info", path], capture_output=True, text=True, errors="replace")
    return run.stdout.splitlines()


def entries_with_lists(path):
    return lists_of(dumped(path))


def lists_of(lines):
    """Of each attribute with a list in what llvm-dwarfdump shows the number of its entry, its name and its items, in the order of the
    entries. A place of an entry is replaced by the entry's number."""
    numbers = {}
    for line in lines:
        if entry := ENTRY.match(line):
            numbers[int(entry[1], 16)] = len(numbers)

    def named(found):
        place = int(found[2], 16) if found.re is NAMING else int.from_bytes(bytes.fromhex(found[2]), "little")
        return f"{found[1]}entry {numbers.get(place, 'nowhere')}"

    out, entry, inside = [], 0, False
    for line in lines:
        if ENTRY.match(line):
            entry, inside = entry + 1, False
        elif attribute := ATTRIBUTE.match(line):
            inside = bool(re.search(r"loclist|rangelist|\(0x[0-9a-f]+:?\s*$", line))
            if inside:
                out.append((entry, attribute[1], []))
        if inside and (item := ITEM.search(line)):
            out[-1][2].append((item[1], UNKNOWN.sub("", UNDECODED.sub(named, NAMING.sub(named, item[2])))))
    return out


def view_pairs(path):
    """The view pairs of all lists, in the order in which they stand."""
    run = subprocess.run(["readelf", "--debug-dump=loc", path], capture_output=True, text=True, errors="replace")
    return VIEWS.findall(run.stdout)


def compile_all(folder):
    made = []
    for name, text in SOURCES.items():
        builds = [(i, [cxx if name.endswith(".cc") else c, *flags]) for i, (c, cxx, flags) in enumerate(COMPILERS)]
        made += compiled(folder, name, text, builds)
    return made


def compare(program, path, out):
    """'same', 'refused', or what differs."""
    answer, words = shrink(program, path, out)
    if answer != "written":
        return answer, words
    if entries_with_lists(path) != entries_with_lists(out):
        return "differs", "the lists of entries"
    if view_pairs(path) != view_pairs(out):
        return "differs", "the view pairs"
    return "same", ""


def main():
    parser = argparse.ArgumentParser(description=__doc__.split("\n")[0])
    parser.add_argument("--program", default=os.path.join(TOP, "crates/shrink_app/out/shrink_app"))
    parser.add_argument("files", nargs="*")
    options = parser.parse_args()
    counts = {"same": 0, "refused": 0, "differs": 0}
    totals = {name: [0, 0] for name in (".debug_info", ".debug_abbrev", ".debug_line", ".debug_rnglists", ".debug_loclists")}
    with tempfile.TemporaryDirectory() as folder:
        out = os.path.join(folder, "out")
        for path in options.files or compile_all(folder):
            result, why = compare(options.program, path, out)
            counts[result] += 1
            if result != "same":
                print(f"{os.path.basename(path)}: {result}: {why}")
                continue
            for name, total in totals.items():
                total[0] += size(path, name)
                total[1] += size(out, name)
    for name, (before, after) in totals.items():
        print(f"{name}: {before} bytes become {after}")
    print(", ".join(f"{count} {what}" for what, count in counts.items()))
    sys.exit(1 if counts["differs"] else 0)


if __name__ == "__main__":
    main()
