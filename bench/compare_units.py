#!/usr/bin/env python3
"""Compiles C sources with gcc and clang, runs the program on the result, and compares what readelf shows of units, entries and
sets of address ranges before and after, with every offset replaced by the number of what stands there. Forms aren't compared, and
of an expression its operations are, without their bytes and the distances of branches.

  bench/compare_units.py [--program PROGRAM] [FILE ..]

A FILE is an ELF file that is taken as it is; without one, small programs are compiled. A file that the program refuses is counted
and its message printed. The last line counts the files; the exit status is 1 where something differs or is refused.
"""
import argparse
import os
import re
import subprocess
import sys
import tempfile

from shrinking import compiled, shrink

TOP = os.path.dirname(os.path.dirname(os.path.abspath(__file__)))

SOURCES = {
    "records": """struct inner { char tag; unsigned bits : 3; unsigned more : 5; };
union either { long number; struct inner inner; double real; };
struct node { struct node *next, *prev; union either value; int (*visit)(struct node *); };
static int visits;
static int visit(struct node *n) { visits++; return n->value.inner.bits; }
struct node root = { &root, &root, { 7 }, visit };
int main(void) { return root.visit(&root) + visits; }
""",
    "recursion": """typedef unsigned long count;
static count depth(count n) { if (n < 2) return n; return depth(n - 1) + depth(n - 2); }
int main(int argc, char **argv) { count most = argc; { count inner = most + 1; most = depth(inner); } return (int)most; }
""",
    "tables": """enum colour { RED = 1, GREEN = 200, BLUE = 70000, LAST = -1 };
static const enum colour wheel[3] = { RED, GREEN, BLUE };
static int grid[4][5][6];
const char *names[] = { "red", "green", "blue" };
static enum colour next(enum colour c) { for (int i = 0; i < 3; i++) if (wheel[i] == c) return wheel[(i + 1) % 3]; return LAST; }
int main(void) { grid[1][2][3] = next(RED); return grid[1][2][3] == GREEN && names[0][0] == 'r'; }
""",
    "numbers": """typedef _Bool truth;
static long double wide(long double x) { return x * 2; }
static float narrow(float x, double y) { return x + (float)y; }
volatile unsigned char byte = 200;
unsigned long long big = 0xfedcba9876543210ull;
int main(void) { truth t = wide(1) > 1; return t + (int)narrow(1, 2) + byte + (int)big; }
""",
    "labels": """static int machine(const char *s) {
    int state = 0;
again:
    switch (*s++) { case 'a': state += 1; goto again; case 'b': state *= 2; goto again; case 0: break; default: return -1; }
    return state;
}
extern int machine_count;
int machine_count = 3;
int main(int argc, char **argv) { static int calls; calls++; return machine(argv[0]) + calls + machine_count; }
""",
    "forward": """struct later;
struct holder { struct later *later; int (*compare)(const struct later *, const struct later *); };
struct later { int key; struct holder *back; };
static int compare(const struct later *a, const struct later *b) { return a->key - b->key; }
static struct holder holder = { 0, compare };
int use(struct later *l) { holder.later = l; l->back = &holder; return holder.compare(l, l); }
int main(void) { struct later l = { 4, 0 }; return use(&l); }
""",
}

COMPILERS = [
    ("gcc", ["-O0"]),
    ("gcc", ["-O0", "-fdebug-types-section"]),
    ("gcc", ["-O0", "-gno-column-info", "-fno-asynchronous-unwind-tables"]),
    ("clang", ["-O0"]),
    ("clang", ["-O0", "-fdebug-types-section"]),
]

ENTRY = re.compile(r"^ <([0-9a-f]+)><([0-9a-f]+)>: Abbrev Number: (\d+)(?: \((\w+)\))?")
UNIT = re.compile(r"^  (?:Compilation|Type) Unit @ offset (?:0x)?([0-9a-f]+)")
# a reference is the whole value; in an expression it may be the index of an address
OF_INFO = re.compile(r"^<0x([0-9a-f]+)>")
# an expression: its bytes, and what readelf says of its operations
EXPRESSION = re.compile(r"^\d+ byte block:[ 0-9a-f]*\t?\((.*)\)(?: \[without DW_AT_frame_base\])?\s*$")
# a whole number, which is shown in hexadecimal where its form is data8
WHOLE = re.compile(r"^(?:0x[0-9a-f]+|-?[0-9]+)(?=\s|$)")


def dump(path, what):
    run = subprocess.run(["readelf", "--debug-dump=" + what, path], capture_output=True, text=True, errors="replace")
    return run.stdout.splitlines()


def in_decimal(found):
    return str(int(found[0], 16 if found[0].startswith("0x") else 10))


def programs(path):
    """The offsets of the line number programs, by their order."""
    found = re.findall(r"^  Offset:\s+(?:0x)?([0-9a-f]+)", "\n".join(dump(path, "rawline")), re.M)
    return {int(at, 16): f"program {i}" for i, at in enumerate(found)}


def places(lines):
    """What stands at each offset of .debug_info: a unit, an entry or the end of a chain, by its number."""
    units, items = {}, {}
    for line in lines:
        if m := UNIT.match(line):
            units[int(m[1], 16)] = f"unit {len(units)}"
        elif m := ENTRY.match(line):
            items[int(m[2], 16)] = f"item {len(items)}"
    return units, items


def operations(words, number):
    """What readelf says of an expression, with the numbers of the entries that operations name."""
    out = []
    for operation in words.split("; "):
        if not operation.startswith(("DW_OP_addrx", "DW_OP_constx")):
            operation = re.sub(r"<0x([0-9a-f]+)>", number, operation)
        out.append(re.sub(r"^(DW_OP_(?:bra|skip)): .*", r"\1", operation))
    return out


def described(path):
    """The units and entries, with offsets replaced by numbers, and how often a name was missing."""
    lines, lost, out = dump(path, "info"), 0, []
    units, items = places(lines)
    heads = programs(path)
    unit = 0
    for line in lines:
        if m := UNIT.match(line):
            unit = int(m[1], 16)
            out.append(units[unit])
        elif m := ENTRY.match(line):
            out.append(f"{m[1]} {'end' if m[3] == '0' else m[4]}")
        elif re.match(r"^   (Length|Abbrev Offset):", line) or line.startswith("Contents of"):
            continue
        elif m := re.match(r"^   Type Offset:\s+(?:0x)?([0-9a-f]+)", line):
            out.append("type " + items.get(unit + int(m[1], 16), "nothing"))
            lost += unit + int(m[1], 16) not in items
        elif m := re.match(r"^\s+<[0-9a-f]+>\s+(DW_AT_stmt_list)\s*:\s*(?:0x)?([0-9a-f]+)", line):
            out.append(f"{m[1]} {heads.get(int(m[2], 16), 'nothing')}")
            lost += int(m[2], 16) not in heads
        elif m := re.match(r"^\s+<[0-9a-f]+>\s+(DW_AT_\S+|Unknown \S+ \S+)\s*:\s*(.*)", line):
            name, value = m[1], WHOLE.sub(in_decimal, m[2])

            def number(found):
                nonlocal lost
                at = int(found[1], 16)
                lost += at not in items
                return "<" + items.get(at, "nothing") + ">"

            if expression := EXPRESSION.match(value):
                out.append(f"{name} {operations(expression[1], number)}")
                continue
            if name in ("DW_AT_ranges", "DW_AT_rnglists_base", "DW_AT_loclists_base", "DW_AT_GNU_locviews") or "location list" in value or "index into .debug_loclists" in value:
                # what lists mean is compared by compare_lists.py
                out.append(name)
                continue
            # the code of the entry that is named is no part of what it means
            out.append(f"{name} {re.sub(r'Abbrev Number: [0-9]+ ', '', OF_INFO.sub(number, value))}")
        elif line.strip():
            out.append(line)
    return out, lost


def ranges(path):
    """The sets of address ranges, each with the number of its unit."""
    units, _ = places(dump(path, "info"))
    out = []
    for line in dump(path, "aranges"):
        if m := re.match(r"^  Offset into \.debug_info:\s+(?:0x)?([0-9a-f]+)", line):
            out.append(units.get(int(m[1], 16), "nothing"))
        else:
            out.append(line)
    return out


def size(path, name):
    m = re.search(rf"\]\s+{re.escape(name)}\s+\S+\s+\S+\s+\S+\s+([0-9a-f]+)", subprocess.run(
        ["readelf", "-SW", path], capture_output=True, text=True).stdout)
    return int(m[1], 16) if m else 0


def compile_all(folder):
    made = []
    for name, text in SOURCES.items():
        builds = [(f"{i}-{compiler}", [compiler, *flags]) for i, (compiler, flags) in enumerate(COMPILERS)]
        made += compiled(folder, name + ".c", text, builds)
    return made


def compare(program, path, out):
    """'same', 'refused', or what differs."""
    answer, words = shrink(program, path, out)
    if answer != "written":
        return answer, words
    before, lost = described(path)
    after, lost_after = described(out)
    if before != after:
        at = next((i for i, (a, b) in enumerate(zip(before, after)) if a != b), min(len(before), len(after)))
        return "differs", f"{before[at:at + 1]} {after[at:at + 1]}"
    if lost or lost_after or ranges(path) != ranges(out):
        return "differs", f"names lost {lost} {lost_after}, or the address ranges"
    return "same", ""


def main():
    parser = argparse.ArgumentParser()
    parser.add_argument("--program", default=os.path.join(TOP, "crates/shrink_app/out/shrink_app"))
    parser.add_argument("files", nargs="*")
    options = parser.parse_args()
    counts = {"same": 0, "refused": 0, "differs": 0}
    totals = {name: [0, 0] for name in (".debug_info", ".debug_abbrev", ".debug_line")}
    with tempfile.TemporaryDirectory() as folder:
        files = options.files or compile_all(folder)
        out = os.path.join(folder, "out")
        for path in files:
            answer, words = compare(options.program, path, out)
            counts[answer] += 1
            if answer == "same":
                for name, total in totals.items():
                    total[0] += size(path, name)
                    total[1] += size(out, name)
            if words:
                print(f"{os.path.basename(path)}: {answer}: {words}")
    for name, (before, after) in totals.items():
        print(f"{name}: {before} -> {after}")
    print(f"{sum(counts.values())} files, {counts['same']} the same, {counts['refused']} refused, {counts['differs']} differ")
    return 1 if counts["differs"] or counts["refused"] else 0


if __name__ == "__main__":
    sys.exit(main())
