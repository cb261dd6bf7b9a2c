#!/usr/bin/env python3
"""Refuses the requests of the built program for memory, under `shrink` and `check` of a small file.

  checks/memory.py [PROGRAM]               left out, it is crates/shrink_app/out/shrink_app

Each request is refused in turn, once with all that follow it and once alone. With all that follow the status is 6. Alone it is 6 too, but for
requests that the program can do without, to grow beyond what is needed or to give memory back: then the answer is as if none were refused.

The file is the one in the manner of clang that the tests of commands have, and so are OUT and CERT. A library that gcc makes of a few lines
stands before the C library's calls. `.ci/run` doesn't run this. Each test prints one line. The last line is `N passed, M failed`, and
the exit status is 1 where one failed.
"""
import argparse
import os
import re
import shutil
import subprocess
import sys

sys.dont_write_bytecode = True
TOP = os.path.dirname(os.path.dirname(os.path.abspath(__file__)))
sys.path.insert(0, os.path.join(TOP, "bench"))
from elf_files import elf_file
from harness import BUILT, SECONDS, Skipped, Tests, executable, wanted

# Refuses the requests with the numbers from FIRST to LAST, counted from 1, and says so.
LIBRARY = r"""
#include <errno.h>
#include <stdlib.h>
#include <unistd.h>

extern void *__libc_malloc(size_t);
extern void *__libc_realloc(void *, size_t);

static long requests, first, last;

__attribute__((constructor)) static void begin(void)
{
    requests = 0;
    first = atol(getenv("FIRST"));
    last = atol(getenv("LAST"));
}

static int refuses(void)
{
    requests++;
    if (requests < first || last < requests)
        return 0;
    errno = ENOMEM;
    return write(2, "refused", 7) == 7;
}

void *malloc(size_t size) { return refuses() ? NULL : __libc_malloc(size); }
void *realloc(void *old, size_t size) { return refuses() ? NULL : __libc_realloc(old, size); }
"""
test = Tests()


def constant(file, name):
    """The bytes of a constant of the tests of commands."""
    with open(os.path.join(TOP, "crates/command_tests/src", file), encoding="utf-8") as source:
        size, numbers = re.search(rf"const {name}: \[u8; (\d+)\] = \[(.*?)\];", source.read(), re.S).groups()
    bytes_ = bytes(int(number, 0) for number in re.findall(r"0x[0-9a-f]+|\d+", re.sub("//.*", "", numbers)))
    assert len(bytes_) == int(size), name
    return bytes_


def sample(info, abbrevs, locations):
    """The file in the manner of clang with these sections."""
    rest = [(".debug_rnglists", "CLANG_RANGES"), (".debug_loclists", locations), (".debug_addr", "CLANG_ADDRESSES")]
    bodies = [(".debug_info", info), (".debug_abbrev", abbrevs), None, *rest]
    sections = [(row[0].encode(), constant("sample_tests.rt", row[1])) if row else (b".debug_line", constant("line_tests.rt", "NO_ROWS")) for row in bodies]
    return elf_file(sections)


class Place:
    """A folder with the library and IN, in which the program runs."""

    def __init__(self, program, folder):
        compiler = shutil.which("gcc")
        if not compiler:
            raise Skipped("there is no gcc")
        self.program, self.folder = program, folder
        self.library = os.path.join(folder, "refuse.so")
        self.write("refuse.c", LIBRARY.encode())
        subprocess.run([compiler, "-shared", "-fPIC", "-O1", "-o", self.library, os.path.join(folder, "refuse.c")], check=True)
        self.write("in", sample("CLANG_INFO", "CLANG_ABBREVS", "CLANG_LOCATIONS"))

    def write(self, name, body):
        with open(os.path.join(self.folder, name), "wb") as file:
            file.write(body)

    def read(self, name):
        with open(os.path.join(self.folder, name), "rb") as file:
            return file.read()

    def run(self, words, first, last):
        """Whether a request had such a number, and the program's status and what it said where these were refused."""
        environment = {**os.environ, "LD_PRELOAD": self.library, "FIRST": str(first), "LAST": str(last)}
        run = subprocess.run([self.program, *words], cwd=self.folder, env=environment, capture_output=True, timeout=SECONDS)
        wanted(not run.stderr.replace(b"refused", b""), f"{run.stderr!r} was said")
        return run.stderr != b"", run.returncode, run.stdout

    def files(self):
        return [self.read(name) for name in ("in", "out", "cert")]

    def refuse_each(self, command, said):
        """Refuses the requests of a command from each one on, and each alone, until there is none with the number."""
        words, number = [command, "in", "out", "cert"], 1
        done = (False, 0, said)
        wanted(self.run(words, 0, 0) == done, "without a refused request the answer is another one")
        files = self.files()
        while True:
            refused, status, found = self.run(words, number, 1 << 40)
            if not refused:
                break
            wanted(status == 6 and said.startswith(found), f"request {number} and all behind it: the status is {status}, {found!r} was said")
            wanted(self.read("in") == files[0], f"request {number}: IN differs")
            _, status, found = self.run(words, number, number)
            wanted(status in (0, 6) and said.startswith(found), f"request {number}: the status is {status}, {found!r} was said")
            wanted(status == 6 or (found, self.files()) == (said, files), f"request {number}: the answer differs")
            number += 1
        wanted(number > 50, f"there were {number - 1} requests")
        wanted(self.run(words, 0, 0) == done and self.files() == files, "the answer at last differs from the first one")


@test
def shrinking(place):
    """shrink ends with 6 where memory is refused from some request on, and for each alone so or as ever"""
    place.refuse_each("shrink", b"")
    least = sample("LEAST_CLANG_INFO_WITH_LISTS", "LEAST_CLANG_ABBREVS_WITH_LISTS", "LEAST_CLANG_LOCATIONS")
    wanted(place.read("out") == least, "OUT is another file")
    wanted(place.read("cert") == constant("sample_tests.rt", "CLANG_CERTIFICATE"), "CERT is another file")


@test
def checking(place):
    """check ends with 6 where memory is refused from some request on, and for each alone so or as ever"""
    place.write("out", sample("LEAST_CLANG_INFO_WITH_LISTS", "LEAST_CLANG_ABBREVS_WITH_LISTS", "LEAST_CLANG_LOCATIONS"))
    place.write("cert", constant("sample_tests.rt", "CLANG_CERTIFICATE"))
    place.refuse_each("check", b"accepted\n")


def main():
    parser = argparse.ArgumentParser(description=__doc__.split("\n")[0])
    parser.add_argument("program", nargs="?", default=BUILT)
    program = executable(parser.parse_args().program)
    return test.run(lambda folder: Place(program, folder))


if __name__ == "__main__":
    sys.exit(main())
