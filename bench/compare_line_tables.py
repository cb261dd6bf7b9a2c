#!/usr/bin/env python3
"""Compiles C sources with gcc and clang, leaves .debug_line as the only debug section, runs the program on the result,
and compares what readelf and llvm-dwarfdump show of the line tables before and after.

  bench/compare_line_tables.py [--program PROGRAM] [--padded] [SOURCE ..]

--padded gives each LEB128 number of the programs a byte of padding first, the lengths of extended opcodes too. Without
a SOURCE some small ones are made. The last line counts the files; the exit status is 1 where something differs.
"""
import argparse
import os
import re
import shutil
import struct
import subprocess
import sys
import tempfile

TOP = os.path.dirname(os.path.dirname(os.path.abspath(__file__)))
UNSIGNED = {2, 4, 5, 12}

SOURCES = {
    "loops.c": """#include <stdio.h>
static int twice(int x) { return 2 * x; }
int walk(const int *xs, int n) {
    int sum = 0;
    for (int i = 0; i < n; i++) {
        if (xs[i] > 3) sum += twice(xs[i]);
        else sum -= xs[i];
    }
    return sum;
}
""",
    "words.c": """#include <string.h>
int words(const char *text) {
    int count = 0, inside = 0;
    for (; *text; text++) {
        int space = strchr(" \\t\\n", *text) != 0;
        if (!space && !inside) count++;
        inside = !space;
    }
    return count;
}
""",
    "main.c": """#include <stdio.h>
int walk(const int *xs, int n);
int words(const char *text);
int main(int argc, char **argv) {
    int xs[] = {1, 2, 3, 4, 5};
    switch (argc) {
    case 1: return walk(xs, 5);
    case 2: return words(argv[1]);
    }
    puts("too many");
    return 1;
}
""",
}


def leb_end(bytes_, at):
    while bytes_[at] & 128:
        at += 1
    return at + 1


def padded(leb):
    """The same number in one byte more."""
    fill = 0x7F if leb[-1] & 0x40 else 0
    return leb[:-1] + bytes([leb[-1] | 128, fill])


def padded_unsigned(leb):
    return leb[:-1] + bytes([leb[-1] | 128, 0])


def pad_program(program, base):
    out, at = bytearray(), 0
    while at < len(program):
        code = program[at]
        if code >= base:
            out.append(code)
            at += 1
        elif code == 0:
            end = leb_end(program, at + 1)
            count = shift = 0
            for byte in program[at + 1 : end]:
                count |= (byte & 127) << shift
                shift += 7
            body = program[end : end + count]
            if body[0] == 4:
                body = body[:1] + padded_unsigned(body[1:])
            out += b"\0" + padded_unsigned(bytes([len(body)])) + body
            at = end + count
        elif code in UNSIGNED or code == 3:
            end = leb_end(program, at + 1)
            out += program[at : at + 1] + (padded if code == 3 else padded_unsigned)(program[at + 1 : end])
            at = end
        elif code == 9:
            out += program[at : at + 3]
            at += 3
        else:
            out.append(code)
            at += 1
    return bytes(out)


def pad_section(section):
    out, at = bytearray(), 0
    while at < len(section):
        length, = struct.unpack_from("<I", section, at)
        header_length, = struct.unpack_from("<I", section, at + 8)
        start, end = at + 12 + header_length, at + 4 + length
        program = pad_program(section[start:end], section[at + 17])
        out += struct.pack("<I", start - at - 4 + len(program)) + section[at + 4 : start] + program
        at = end
    return bytes(out)


def shown(path):
    texts = [
        subprocess.run([tool, option, path], capture_output=True, text=True).stdout
        for tool, option in (("readelf", "--debug-dump=decodedline"), ("llvm-dwarfdump", "--debug-line"))
        if shutil.which(tool)
    ]
    # Offsets in the section, lengths, the fields by which opcodes are chosen and the file's own name are not part of the
    # tables.
    chosen = "total_length|prologue_length|line_base|line_range|opcode_base|standard_opcode_lengths"
    cut = re.compile(rf"^ *(?:{chosen}).*\n|^debug_line\[.*|offset 0x[0-9a-f]+|0x[0-9a-f]{{8}}: |^.*file format.*$", re.M)
    tables = [cut.sub("", text.replace(path, "FILE")) for text in texts]
    assert all(len(table.splitlines()) > 20 for table in tables), "no line tables are shown"
    return tables


def debug_line_only(path):
    names = subprocess.run(["readelf", "-SW", path], capture_output=True, text=True).stdout
    others = sorted(set(re.findall(r"\.debug_[a-z_]+", names)) - {".debug_line"})
    subprocess.run(["objcopy", *sum((["-R", name] for name in others), []), path], check=True)


def section_of(path, folder):
    body = os.path.join(folder, "body")
    subprocess.run(["objcopy", "-O", "binary", "--only-section=.debug_line", "--set-section-flags", ".debug_line=alloc", path, body], check=True)
    return open(body, "rb").read()


def main():
    words = argparse.ArgumentParser(description=__doc__, formatter_class=argparse.RawDescriptionHelpFormatter)
    words.add_argument("--program", default=os.path.join(TOP, "crates/shrink_app/out/shrink_app"))
    words.add_argument("--padded", action="store_true")
    words.add_argument("sources", nargs="*")
    args = words.parse_args()
    count = wrong = 0
    with tempfile.TemporaryDirectory() as folder:
        sources = args.sources
        if not sources:
            for name, text in SOURCES.items():
                open(os.path.join(folder, name), "w").write(text)
            sources = [os.path.join(folder, name) for name in SOURCES]
        for compiler in ("gcc", "clang"):
            for level in ("-O0", "-O2", "-Os"):
                if not shutil.which(compiler):
                    continue
                path, out = os.path.join(folder, "in"), os.path.join(folder, "out")
                subprocess.run([compiler, level, "-g", "-gdwarf-5", "-o", path, *sources], check=True)
                debug_line_only(path)
                if args.padded:
                    body = os.path.join(folder, "padded")
                    padded_body = pad_section(section_of(path, folder))
                    open(body, "wb").write(padded_body)
                    subprocess.run(["objcopy", "--update-section", ".debug_line=" + body, path], check=True)
                before = section_of(path, folder)
                if os.path.exists(out):
                    os.remove(out)
                run = subprocess.run([args.program, "shrink", path, out, os.devnull], capture_output=True, text=True)
                count += 1
                if run.returncode != 0:
                    wrong += 1
                    print(f"{compiler} {level}: status {run.returncode}, {run.stdout.strip()}")
                    continue
                same = shown(path) == shown(out)
                wrong += not same
                print(f"{compiler} {level}: .debug_line {len(before)} -> {len(section_of(out, folder))}, tables {'the same' if same else 'DIFFER'}")
    print(f"{count} files, {wrong} differ")
    sys.exit(1 if wrong else 0)


main()
