#!/usr/bin/env python3
"""Runs the launcher mikadocherry, as it stands in the checkout and as `make install` installs it, and tests which words it
refuses, that the program's own answers stay what they are, what it says of them, and how it has the kit build the program.

  checks/launcher.py                       with the built program, crates/shrink_app/out/shrink_app
  checks/launcher.py --program PROGRAM     with another one

Nothing is proved here: a script stands in place of the kit's command rt. Each test prints one line. The last line is
`N passed, M failed`, and the exit status is 1 where one failed.
"""
import argparse
import contextlib
import os
import pty
import random
import re
import select
import shutil
import signal
import struct
import subprocess
import sys
import tarfile
import time

sys.dont_write_bytecode = True
TOP = os.path.dirname(os.path.dirname(os.path.abspath(__file__)))
sys.path.insert(0, os.path.join(TOP, "bench"))
sys.path.insert(0, os.path.join(TOP, "checks"))
sys.path.insert(0, os.path.join(TOP, "launcher"))
from edge import pair_of_units
from elf_files import elf_file
from elf_headers import has_appended_bytes, read_headers, section_of, shown_name
from harness import BUILT, SECONDS, Skipped, Tests, executable, is_alive, wait_for, wanted

SCRIPTS = ("mikadocherry", "mikadocherry-tree")
test = Tests()

# Stands in place of the kit's command, and notes in which folder it is run and its words. `all check --jobs N` says of each crate
# what the kit does, and `run` makes the program and runs it. A file sleep-NAME says how long a crate takes, fail-NAME that it
# fails, and current-NAME that nothing has to be proved of it.
FAKE_RT = """#!/bin/bash
echo "$PWD $*" >>{folder}/notes
if [ "$*" = run ]; then
    [ ! -e {folder}/fail-run ] || exit 1
    echo "logic=proved of the program" >&2
    mkdir -p out
    cp {program} "out/${{PWD##*/}}"
    "out/${{PWD##*/}}"
    exit
fi
[[ $* =~ ^all\ check\ --jobs\ [1-9][0-9]*$ ]] || exit 2
[ ! -e {folder}/fail-all ] || {{ echo "rt: mend these first: no library was built, and no proof was checked"; exit 1; }}
failed=" " summary="== summary"
while IFS=: read -r crate libraries; do
    case $crate in '' | '#'*) continue ;; esac
    word=ok
    for library in $libraries; do [[ $failed != *" $library "* ]] || word="not run, since $library failed"; done
    if [ "$word" = ok ]; then
        [ ! -e {folder}/sleep-$crate ] || sleep "$(cat {folder}/sleep-$crate)"
        echo "== $crate"
        if [ -e {folder}/fail-$crate ]; then
            printf '%s\n' "as it rains" "logic=not-proved of $crate"
            word="failed (1)"
        elif [ ! -e {folder}/current-$crate ]; then
            printf '%s\n' "half of it" "logic=proved of $crate"
        fi
    fi
    [ "$word" = ok ] || failed+="$crate "
    summary+=$'\n'"$crate: $word"
done <crates.txt
echo "$summary"
echo "some of all crates ok"
[ "$failed" = " " ]
"""


class Place:
    """A folder for one test, in which the launcher runs."""

    def __init__(self, program, folder):
        self.program, self.folder = program, os.path.realpath(folder)

    def path(self, name):
        return os.path.join(self.folder, name)

    def write(self, name, body, mode=0o644):
        path = self.path(name)
        os.makedirs(os.path.dirname(path), exist_ok=True)
        with open(path, "wb") as file:
            file.write(body if isinstance(body, bytes) else body.encode())
        os.chmod(path, mode)
        return path

    def read(self, name):
        with open(self.path(name), "rb") as file:
            return file.read()

    def run(self, command, **how):
        how = {"cwd": self.folder, "stdout": subprocess.PIPE, "stderr": subprocess.PIPE, "timeout": SECONDS, **how}
        return subprocess.run(command, **how)

    def says(self, command, status, answer, words, **how):
        """Fails where a command hasn't this status and this answer on standard output, and these words on standard error."""
        run = self.run(command, **how)
        found = (run.returncode, run.stdout)
        wanted(found == (status, answer), f"{command}: {found} and not {(status, answer)}: {run.stderr!r}")
        said = run.stderr.decode()
        wanted(words in said if words else not said, f"{command}: {said!r} is said, and not {words!r}")

    def checkout(self, crates, program=None):
        """A checkout with these lines of crates.txt and a fake rt in `bin`."""
        for name in ("mikadocherry", "VERSION"):
            shutil.copy(os.path.join(TOP, name), self.path(name))
        shutil.copytree(os.path.join(TOP, "launcher"), self.path("launcher"))
        self.write("crates.txt", crates)
        self.write("crates/a/src/lib.rt", "\n")
        self.write("crates/shrink_app/src/main.rt", "\n")
        self.write("crates/packages_app/src/main.rt", "\n")
        self.write("bin/rt", FAKE_RT.format(folder=self.folder, program=program or self.program), 0o755)
        return self.path("mikadocherry")

    def environment(self, **more):
        return {**os.environ, "PATH": self.path("bin") + ":" + os.environ["PATH"], **more}

    def notes(self):
        """How the fake rt was called: in which folder of the checkout, and with which words."""
        with contextlib.suppress(FileNotFoundError):
            lines = [line.split(" ", 1) for line in self.read("notes").decode().splitlines()]
            return [(os.path.relpath(folder, self.folder), words) for folder, words in lines]
        return []

    def installed(self, *words):
        """The launcher as it is installed below `usr`."""
        if not shutil.which("make"):
            raise Skipped("there is no make")
        command = ["make", "-C", TOP, *words, f"PROGRAM={self.program}", f"PACKAGES={self.program}", "PREFIX=" + self.path("usr")]
        run = self.run(command)
        wanted(run.returncode == 0, f"it fails: {run}")
        return self.path("usr/bin/mikadocherry")

    def launchers(self):
        """The launcher of a checkout with the program built, and the installed one, where it can be installed."""
        launcher = self.checkout("shrink_app:\n")
        for crate in ("shrink_app", "packages_app"):
            os.makedirs(self.path(f"crates/{crate}/out"))
            shutil.copy(self.program, self.path(f"crates/{crate}/out/{crate}"))
            os.utime(self.path(f"crates/{crate}/out/{crate}"))
        return [launcher, self.installed("install")] if shutil.which("make") else [launcher]


# ---- words and answers


@test
def help_and_version(place):
    """--help and --version answer without the program, in a checkout and where it is installed"""
    for launcher in place.launchers():
        with open(os.path.join(TOP, "VERSION")) as file:
            place.says([launcher, "--version"], 0, b"mikadocherry " + file.read().encode(), "")
        shown = place.run([launcher, "--help"]).stdout.decode()
        for verb in ("shrink IN OUT CERT", "check IN OUT CERT", "stat IN", "make NUMBER UNITS OUT"):
            wanted(f"mikadocherry {verb}" in shown, f"{verb} isn't said")
        wanted(("first use proves" in shown) == ("usr" not in launcher), "another help is said")


@test
def two_programs(place):
    """--for packages runs the one for debug packages, --for bytes and no --for the other, and another word behind it is a wrong one"""
    for launcher in place.launchers():
        programs = ["crates/shrink_app/out/shrink_app", "crates/packages_app/out/packages_app"]
        if "usr" in launcher:
            programs = ["usr/libexec/mikadocherry/mikadocherry", "usr/libexec/mikadocherry/mikadocherry-packages"]
        for name in programs:
            place.write(name, f'#!/bin/sh\necho {os.path.basename(name)} "$*"\n', 0o755)
        first, second = (os.path.basename(name).encode() for name in programs)
        for words, said in (
            (["stat", "in"], first + b" stat in\n"),
            (["--for", "bytes", "stat", "in"], first + b" stat in\n"),
            (["--for", "packages", "stat", "in"], second + b" stat in\n"),
            (["--for", "packages"], second + b" \n"),
        ):
            place.says([launcher, *words], 0, said, "")
        for words in (["--for"], ["--for", "size", "stat", "in"], ["--for", ""]):
            place.says([launcher, *words], 2, b"words\n", "--for takes bytes or packages")


def same_answers(place, launcher, words, **how):
    """Fails where the launcher doesn't answer on standard output and with the status as the program does, and write so."""
    answers = []
    for name, program in (("one", place.program), ("other", launcher)):
        folder = place.path(name)
        shutil.rmtree(folder, ignore_errors=True)
        shutil.copytree(place.path("files"), folder)
        run = subprocess.run([program, *words], cwd=folder, stderr=subprocess.DEVNULL, timeout=SECONDS, **how)
        files = {name: place.read(os.path.join(folder, name)) for name in os.listdir(folder) if name != "folder"}
        answers.append((run.returncode, run.stdout, files))
    wanted(answers[0] == answers[1], f"{words}: {answers[1][:2]} is answered, and by the program {answers[0][:2]}")


@test
def answers_of_the_program(place):
    """standard output, status and files are those of the program, also where output is full, closed or a broken pipe, or input closed"""
    source, written = pair_of_units(3)
    os.makedirs(place.path("files/folder"))
    macro = elf_file([(b".text", b"1234567"), (b".debug_macro", b"")])
    odd = elf_file([(b".text", b"12345"), (b".a\xff\n\x1b %s", b"1")])
    for name, body in (("in", source), ("out", written), ("cert", b"DWMIN01\n"), ("macro", macro), ("odd", odd), ("empty", b"")):
        place.write(f"files/{name}", body)
    words = [
        [], ["stat", "in"], ["stat", "missing"], ["stat", "macro"], ["stat", "folder"], ["stat", b"in\xff"], ["shrink", "in"],
        ["shrink", "in", "new", "its"], ["shrink", "in", "in", "its"], ["shrink", "in", "new", "folder"], ["shrink", "in", "folder", "new"],
        ["shrink", "macro", "new", "its"], ["shrink", "in", "missing/new", "its"], ["shrink", "in", "", "its"],
        ["shrink", "in", "new", "/dev/null"], ["shrink", "in", "/dev/null", "its"], ["shrink", "in", "/dev/null", "/dev/null"],
        ["check", "in", "out", "cert"], ["check", "odd", "out", "cert"], ["check", "in", "macro", "cert"], ["check", "in", "out", "no"],
        ["check", "in", "empty", "cert"], ["make", "7", "2", "drawn"], ["make", "7", "0", "drawn"], ["grow", "", "", ""],
    ]
    for launcher in place.launchers():
        for some in words:
            same_answers(place, launcher, some, stdout=subprocess.PIPE)
        for some in (["stat", "in"], ["stat", "macro"], ["shrink", "in", "new", "its"], []):
            same_answers(place, launcher, some, preexec_fn=lambda: os.close(0), stdout=subprocess.PIPE)
            same_answers(place, launcher, some, preexec_fn=lambda: os.close(1))
            with open("/dev/full", "wb") as full:
                same_answers(place, launcher, some, stdout=full)
            reader, writer = os.pipe()
            os.close(reader)
            same_answers(place, launcher, some, stdout=writer)
            os.close(writer)
        with open(place.path("files/in"), "rb") as file:
            same_answers(place, launcher, ["shrink", "/dev/stdin", "new", "its"], stdin=file, stdout=subprocess.PIPE)


@test
def names_of_one_file(place):
    """two names of one file are wrong words: links, other paths, and names of one that isn't there yet; /dev/null isn't refused"""
    source, written = pair_of_units(3)
    launchers = place.launchers()
    place.write("a/in", source)
    os.link(place.path("a/in"), place.path("a/hard"))
    os.symlink("a/in", place.path("soft"))
    os.symlink("new", place.path("later"))
    os.symlink("/dev/null", place.path("null"))
    for launcher in launchers:
        for one, two, three in (
            ("a/in", "a/hard", "c"), ("a/in", "soft", "c"), ("a/in", "a/../a/in", "c"), ("a/in", "out", "a/hard"),
            ("a/in", "c", "./c"), ("a/in", "new", "later"), ("a/in", "later", "a/../new"), ("a/in", "c\n", "./c\n"),
        ):
            for verb in ("shrink", "check"):
                place.says([launcher, verb, one, two, three], 2, b"words\n", "are names of one file")
        wanted(place.read("a/in") == source and not os.path.exists(place.path("new")), "a file is written")
        with open("/dev/full", "wb") as full:
            place.says([launcher, "shrink", "a/in", "soft", "c"], 5, None, "", stdout=full)
        reader, writer = os.pipe()
        os.close(reader)
        place.says([launcher, "shrink", "a/in", "soft", "c"], 5, None, "", stdout=writer)
        os.close(writer)
        for two, three in (("b", "/dev/null"), ("/dev/null", "null"), ("b", "null"), ("c", "c\n")):
            place.says([launcher, "shrink", "a/in", two, three], 0, b"", "")
        wanted(place.read("b") == place.read("c") == written, "another file is written")
        os.remove(place.path("c"))
        plain = {**os.environ, "MIKADOCHERRY_PLAIN": "1"}
        place.says([launcher, "check", "a/in", "soft", "b"], 7, b"rejected record 0\n", "", env=plain)


@test
def statuses_explained(place):
    """standard error says what the statuses 2 and 4 to 6 mean, and which file it was where that can be seen"""
    place.write("in", pair_of_units(3)[0])
    os.mkdir(place.path("folder"))
    for launcher in place.launchers():
        for words, status, said in (
            (["grow"], 2, "wrong words"),
            (["stat", "missing"], 4, "status 4: a file couldn't be read, and no file was touched: missing isn't there"),
            (["stat", "folder"], 4, "folder is a folder"),
            (["shrink", "a b", "x", "y"], 4, "a\\ b isn't there"),
            (["check", "in", "in2", "c"], 4, "in2 isn't there"),
            (["shrink", "in", "no/out", "c"], 5, "the folder of no/out isn't there"),
            (["shrink", "in", "folder", "c"], 5, "status 5: OUT, CERT or standard output couldn't be written: folder is a folder"),
            (["shrink", "in", "out", "no/c"], 5, "the folder of no/c isn't there. CERT is written last, and OUT is whole"),
            (["shrink", "in", "/dev/full", "c"], 5, "the disk may be full. CERT is written last"),
            (["make", "1", "1", "no/out"], 5, "the folder of no/out isn't there"),
        ):
            place.says([launcher, *words], status, b"words\n" if status == 2 else b"", said)
    stand_ins = (("exit 6", 6, "status 6: memory was wanting"), ("kill -KILL $$", -9, "SIGKILL: memory may have been wanting"),
                 ("kill -SEGV $$", -11, "SIGSEGV"))
    for text, status, said in stand_ins:
        place.write("crates/shrink_app/out/shrink_app", f"#!/bin/sh\nulimit -c 0\n{text}\n", 0o755)
        place.says([place.path("mikadocherry"), "stat", "in"], status, b"", said)


@test
def refusals_explained(place):
    """standard error names the section of a refusal and what to do, and without python3 the kind; standard output stays"""
    source, written = pair_of_units(3)
    body = b"12345"
    files = {
        "macro": (elf_file([(b".text", body), (b".debug_macro", b""), (b".debug_str", body)]), ".debug_macro: compile without -g3"),
        "names": (elf_file([(b".text", body), (b".debug_names", body)]), ".debug_names: compile without -gpubnames"),
        "index": (elf_file([(b".gdb_index", body)]), ".gdb_index: link without --gdb-index"),
        "old": (elf_file([(b".debug_loc", body)]), ".debug_loc: compile all with -gdwarf-5"),
        "zipped": (elf_file([(b".zdebug_info", body)]), ".zdebug_info: compile and link without -gz"),
        "head": (source[:68] + b"\4" + source[69:], ".debug_info: not version 5 of DWARF"),
        "other": (elf_file([(b".debug_\x1b[1m", body)]), ".debug_\\x1b[1m: a debug section that isn't read"),
        "object": (source[:16] + b"\1" + source[17:], "FileType: only linked files are read"),
        "empty": (b"", "NotElf64: it is no ELF-64 file"),
    }
    place.write("-in", source)
    place.write("-cert", b"")
    bare = bare_path(place)
    for launcher in place.launchers():
        for name, (file, said) in files.items():
            place.write("-" + name, file)
            answer = place.run([place.program, "stat", "-" + name]).stdout
            place.says([launcher, "stat", "-" + name], 3, answer, f"mikadocherry: IN is refused: {said}")
        answer, said = place.run([place.program, "stat", "-macro"]).stdout, files["macro"][1]
        place.says([launcher, "shrink", "-macro", "x", "y"], 3, answer, f"IN is refused: {said}")
        place.says([launcher, "check", "-in", "-macro", "-cert"], 3, answer.replace(b"refused", b"refused out"), f"OUT is refused: {said}")
        place.says([launcher, "check", "-macro", "-in", "-cert"], 3, answer.replace(b"refused", b"refused in"), f"IN is refused: {said}")
        place.says([launcher, "stat", "-macro"], 3, answer, "IN is refused: Companion: a debug section", env={"PATH": bare})


def bare_path(place):
    """A folder with the programs that the launcher needs, and without python3."""
    os.mkdir(place.path("bare"))
    for name in ("bash", "env", "readlink", "dirname", "find", "cat", "sh"):
        os.symlink(shutil.which(name), place.path(f"bare/{name}"))
    return place.path("bare")


@test
def damaged_headers(place):
    """the section of a refusal is looked up in damaged files too, without a fault and in a moment"""
    rng = random.Random(5)
    lookup = os.path.join(TOP, "launcher/elf_headers.py")
    whole = elf_file([(b".text", b"12345"), (b".debug_macro", b"12345")])
    headers_at = struct.unpack_from("<Q", whole, 40)[0]
    start = time.monotonic()
    for _ in range(1_000):
        damaged = bytearray(whole)
        for _ in range(rng.randrange(1, 5)):
            at = rng.choice([rng.randrange(4, 64), rng.randrange(headers_at, len(whole) - 7)])
            damaged[at : at + rng.choice([1, 8])] = rng.choice([b"\xff" * 8, bytes(8), rng.randbytes(8)])[: rng.choice([1, 8])]
        place.write("damaged", bytes(damaged[: rng.choice([len(damaged), rng.randrange(len(damaged))])]))
        file = os.open(place.path("damaged"), os.O_RDONLY)
        size = os.fstat(file).st_size
        headers = read_headers(file, size)
        if headers:
            has_appended_bytes(file, size, headers)
            shown_name(section_of(headers, rng.choice(["Torn", "Companion", "Short"]), rng.randrange(200)))
        os.close(file)
    wanted(time.monotonic() - start < 30, "it took its time")
    os.mkfifo(place.path("pipe"))
    for name in ("missing", "pipe", "."):
        place.says([sys.executable, lookup, name, "Companion", "69"], 1, b"", "")
    place.write("whole", whole)
    place.says([sys.executable, lookup, "whole", "Companion", "69"], 0, b".debug_macro\n", "")
    place.says([sys.executable, lookup, "whole", "Companion", "9" * 30], 1, b"", "")


@test
def signals_end_the_program(place):
    """SIGINT, SIGTERM and SIGHUP end the launcher by the signal, and the program with it"""
    launcher = place.launchers()[0]
    place.write("crates/shrink_app/out/shrink_app", f"#!/bin/sh\necho $$ >{place.path('begun')}\nexec sleep 60\n", 0o755)
    for number in (signal.SIGINT, signal.SIGTERM, signal.SIGHUP):
        run = subprocess.Popen([launcher, "stat", "in"], cwd=place.folder, stdout=subprocess.PIPE)
        wait_for(lambda: os.path.exists(place.path("begun")) and place.read("begun"), "no program runs")
        run.send_signal(number)
        wanted(run.wait(SECONDS) == -number, f"it ends with {run.returncode}")
        wait_for(lambda: not is_alive(int(place.read("begun"))), "the program still runs")
        run.stdout.close()
        os.remove(place.path("begun"))


# ---- the program built by the kit


CRATES = """# a comment: not a crate
a: std

b: a
shrink_app: a b serde_json
other: a
"""


def on_processors(count):
    """Lets a process have so many processors."""
    def choose():
        os.sched_setaffinity(0, sorted(os.sched_getaffinity(0))[:count])
    return choose


@test
def building(place):
    """rt proves all crates, as many at once as there are processors, and then builds the program, where a source is newer than it"""
    launcher = place.checkout(CRATES)
    place.write("current-b", "")
    for name, seconds in (("a", 1.5), ("other", 2.5)):
        place.write(f"sleep-{name}", str(seconds))
    run = place.run([launcher, "grow"], env=place.environment(), preexec_fn=on_processors(1))
    wanted((run.returncode, run.stdout) == (2, b"words\n"), f"{run}")
    calls = place.notes()
    wanted(calls == [(".", "all check --jobs 1"), ("crates/shrink_app", "run"), ("crates/packages_app", "run")], f"rt is called so: {calls}")
    said = [re.sub(r"\(\d+:\d\d\)$", "(TIME)", it) for it in run.stderr.decode().splitlines()]
    shown = [f"mikadocherry: {count} of 4 crates are proved (TIME)" for count in (0, 3)]
    wanted(said[0].startswith("mikadocherry: proving and building the program") and said[1:3] == shown, said)
    place.says([launcher], 2, b"words\n", "wrong words", env=place.environment())
    wanted(place.notes() == calls, "it is built twice")
    for name in ("a", "other"):
        os.remove(place.path(f"sleep-{name}"))
    os.utime(place.path("crates/shrink_app/out/shrink_app"), (1, 1))
    count = min(2, len(os.sched_getaffinity(0)))
    place.run([launcher], env=place.environment(), preexec_fn=on_processors(count))
    calls = place.notes()[3:]
    wanted(calls == [(".", f"all check --jobs {count}"), ("crates/shrink_app", "run"), ("crates/packages_app", "run")], f"rt is called so: {calls}")
    # where only times are newer rt may leave the program as it is
    fake = place.read("bin/rt").replace(b"    cp ", b"    : ")
    place.write("bin/rt", fake, 0o755)
    os.utime(place.path("crates/shrink_app/out/shrink_app"), (1, 1))
    place.run([launcher], env=place.environment())
    place.says([launcher], 2, b"words\n", "wrong words", env=place.environment())
    wanted(len(place.notes()) == 9, f"what is current is built again, or what isn't is not: {place.notes()}")


@test
def memory_for_proofs(place):
    """as many crates are proved at once as memory holds, but at least one"""
    with open("/proc/meminfo") as file:
        available = int(re.search(r"MemAvailable:\s+(\d+)", file.read())[1])
    script = 'top=. program=.; . "$0"; memory_of_a_proof=$1; side_by_side'
    for each, count in ((available * 2, 1), (available * 2 // 5, 2), (1, len(os.sched_getaffinity(0)))):
        if count <= len(os.sched_getaffinity(0)):
            place.says(["bash", "-c", script, os.path.join(TOP, "launcher/build.sh"), str(each)], 0, b"%d\n" % count, "")


@test
def failures(place):
    """where the build fails the status is 70, and what failed and the log are said, which has all that rt has said"""
    launcher = place.checkout(CRATES)
    log = place.path("crates/shrink_app/out/build.log")
    for name, words, line in (
        ("shrink_app", "the build failed in shrink_app: see", b"as it rains\n"),
        ("all", "the build failed: see", b"rt: mend these first"),
        ("run", "the build failed: see", b"other: ok\n"),
    ):
        place.write(f"fail-{name}", "")
        place.says([launcher, "stat", "in"], 70, b"", f"mikadocherry: {words} {log}\n", env=place.environment())
        wanted(line in place.read(log), f"the log has something else: {place.read(log)}")
        os.remove(place.path(f"fail-{name}"))
    wanted([it[1] for it in place.notes()].count("run") == 1, "the program is built though a proof failed")
    for name in ("b", "other"):
        place.write(f"fail-{name}", "")
    place.write("sleep-other", "2.5")
    said = place.run([launcher], env=place.environment()).stderr
    wanted(b" 1 of 4 crates are proved (" in said and b" 2 of 4 " not in said, f"a failed one counts as proved: {said}")
    wanted(f"the build failed in b other: see {log}\n".encode() in said, said)
    place.write("bin/rt", "#!/bin/sh\nkill -KILL $$\n", 0o755)
    place.says([launcher], 70, b"", "the build failed: see", env=place.environment())


# Notes its open files. The first of two waits for the second, which it must not hold up.
FIRST_AND_SECOND = """#!/bin/sh
ls -l /proc/$$/fd >{folder}/open-$1
if [ "$1" = first ]; then until [ -e {folder}/open-second ]; do sleep 0.1; done; fi
echo words; exit 2
"""


@test
def launchers_side_by_side(place):
    """of two launchers that have to build the program one does, and the other waits for that and not for the program's run"""
    if not shutil.which("flock"):
        raise Skipped("there is no flock")
    launcher = place.checkout(CRATES, place.write("waiting", FIRST_AND_SECOND.format(folder=place.folder), 0o755))
    place.write("sleep-a", "2")
    how = {"cwd": place.folder, "env": place.environment(), "stdout": subprocess.PIPE, "stderr": subprocess.PIPE}
    runs = [subprocess.Popen([launcher, "first"], **how)]
    try:
        wait_for(place.notes, "no build begins")
        runs.append(subprocess.Popen([launcher, "second"], **how))
        said = [run.communicate(timeout=SECONDS) for run in runs]
    finally:
        for run in runs:
            run.kill()
    wanted([(run.returncode, out) for run, (out, _) in zip(runs, said)] == [(2, b"words\n")] * 2, said)
    wanted([b"another launcher builds the program" in err for _, err in said] == [False, True], said)
    wanted(len(place.notes()) == 3, "it is built twice")
    files = place.read("open-first")
    wanted(b"build.log" not in files, f"the program gets open files of the build: {files}")


@test
def missing_kit(place):
    """without rt on the PATH, the program's sources or a place for the log, the status is 70 and standard error says why"""
    launcher = place.checkout(CRATES)
    place.says([launcher], 70, b"", "rt isn't on the PATH", env={"PATH": bare_path(place)})
    os.makedirs(place.path("crates/shrink_app/out/build.log"))
    place.says([launcher], 70, b"", "build.log can't be written", env=place.environment())
    shutil.rmtree(place.path("crates/shrink_app/out"))
    place.write("crates/shrink_app/out", "")
    place.says([launcher], 70, b"", "build.log can't be written", env=place.environment())
    os.remove(place.path("crates/shrink_app/src/main.rt"))
    place.says([launcher], 70, b"", "main.rt is missing", env=place.environment())


# Answers by one of its words only when another program has ended, and doesn't heed SIGTERM.
WAITING_RT = """#!/bin/bash
trap '' TERM
[ "$1" = {word} ] || exit 0
sleep 60 &
echo $$ $! >{folder}/being-made
mv {folder}/being-made {folder}/begun
wait
wait
"""


def ended_by(place, command, number, word="all"):
    """What a command says that is ended by a signal while rt runs with this word, which has to end, with what it has started."""
    place.write("bin/rt", WAITING_RT.format(folder=place.folder, word=word), 0o755)
    run = subprocess.Popen(command, cwd=place.folder, env=place.environment(), stderr=subprocess.PIPE)
    wait_for(lambda: os.path.exists(place.path("begun")), "no build begins")
    begun = place.read("begun").split()
    run.send_signal(number)
    said = run.communicate(timeout=SECONDS)[1]
    wanted(run.returncode == -number, f"it ends with {run.returncode}: {said!r}")
    wait_for(lambda: not any(is_alive(int(pid)) for pid in begun), "the build still runs")
    os.remove(place.path("begun"))
    return said


@test
def interrupted_builds(place):
    """SIGINT, SIGTERM and SIGHUP end the build, with what it has started, and then the launcher by the signal"""
    launcher = place.checkout(CRATES)
    for number in (signal.SIGINT, signal.SIGTERM, signal.SIGHUP):
        for word in ("all", "run"):
            said = ended_by(place, [launcher], number, word)
            wanted(all(it not in said for it in (b"Terminated", b"Killed", b"failed")), said)


@test
def interrupted_trees(place):
    """SIGTERM and SIGKILL of a run of mikadocherry-tree, which has the launcher build the program, end the build too"""
    place.checkout(CRATES)
    shutil.copy(os.path.join(TOP, "mikadocherry-tree"), place.path("mikadocherry-tree"))
    place.write("tree/in", pair_of_units(3)[0])
    for number in (signal.SIGTERM, signal.SIGKILL):
        ended_by(place, [sys.executable, place.path("mikadocherry-tree"), "tree"], number)


@test
def progress_of_proofs(place):
    """on a terminal progress is one line, said anew each second"""
    launcher = place.checkout(CRATES)
    place.write("sleep-a", "2.5")
    terminal, end = pty.openpty()
    run = subprocess.Popen([launcher], cwd=place.folder, env=place.environment(), stdout=subprocess.PIPE, stderr=end)
    run.communicate(timeout=SECONDS)
    os.close(end)
    shown = b""
    with contextlib.suppress(OSError):
        while select.select([terminal], [], [], 1)[0]:
            shown += os.read(terminal, 10_000)
    os.close(terminal)
    wanted(run.returncode == 2 and shown.count(b"\r\x1b[Kmikadocherry: 0 of 4 crates are proved (0:0") > 1, shown)
    wanted(shown.count(b"\n") == 2, shown)


# ---- installing


def files_below(folder):
    return {os.path.relpath(os.path.join(top, it), folder) for top, _, names in os.walk(folder) for it in names}


@test
def installed_files(place):
    """make install puts each file where it belongs, make uninstall removes them, and neither needs more than PREFIX and DESTDIR"""
    launcher = place.installed("install", "DESTDIR=")
    found = files_below(place.path("usr"))
    parts = [f"libexec/mikadocherry/{it}" for it in ("VERSION", "elf_headers.py", "explain.sh", "mikadocherry", "mikadocherry-packages")]
    shared = [f"share/bash-completion/completions/{it}" for it in SCRIPTS] + [f"share/man/man1/{it}.1" for it in SCRIPTS]
    wanted(found == {*[f"bin/{it}" for it in SCRIPTS], *parts, *shared}, f"{found} are installed")
    place.write("in", pair_of_units(3)[0])
    place.says([launcher, "shrink", "in", "out", "cert"], 0, b"", "")
    os.remove(place.path("usr/libexec/mikadocherry/mikadocherry"))
    place.says([launcher, "stat", "in"], 70, b"", "mikadocherry/mikadocherry is missing")
    place.installed("uninstall")
    left = files_below(place.path("usr"))
    wanted(not left and not os.path.exists(place.path("usr/libexec/mikadocherry")), f"{left} are left")
    run = place.run(["make", "-C", TOP, "install", "PROGRAM=missing", "PREFIX=" + place.path("usr")])
    wanted(run.returncode == 2 and b"run ./mikadocherry first" in run.stderr, f"it isn't refused: {run}")


@test
def archive(place):
    """make dist packs what is installed with sums that hold and the kit's line, twice the same, and it runs where it is unpacked"""
    if not shutil.which("make"):
        raise Skipped("there is no make")
    place.write("bin/rt", "#!/bin/sh\necho rattle-kit-0 logic 0\n", 0o755)
    # a copy, so that the checkout's own archive stays
    for name in ("Makefile", "VERSION", *SCRIPTS):
        shutil.copy2(os.path.join(TOP, name), place.path(name))
    for name in ("launcher", "man", "completion"):
        shutil.copytree(os.path.join(TOP, name), place.path(name))
    packed = []
    for _ in range(2):
        run = place.run(["make", "dist", f"PROGRAM={place.program}", f"PACKAGES={place.program}"], env=place.environment())
        wanted(run.returncode == 0, f"it fails: {run}")
        with open(os.path.join(TOP, "VERSION")) as file:
            name = f"mikadocherry-{file.read().strip()}"
        packed.append(place.read(f"out/{name}.tar.gz"))
    wanted(packed[0] == packed[1], "two archives differ")
    with tarfile.open(place.path(f"out/{name}.tar.gz")) as file:
        file.extractall(place.path("unpacked"))
    folder = place.path(f"unpacked/{name}")
    place.says(["sha256sum", "--quiet", "--strict", "-c", "SHA256SUMS"], 0, b"", "", cwd=folder)
    place.says(["sha256sum", "--quiet", "--strict", "-c", f"{name}.tar.gz.sha256"], 0, b"", "", cwd=place.path("out"))
    wanted(place.read(os.path.join(folder, "KIT")) == b"rattle-kit-0 logic 0\n", "the kit's line is another one")
    place.write("in", pair_of_units(3)[0])
    place.says([os.path.join(folder, "bin/mikadocherry"), "shrink", "in", "new", "cert"], 0, b"", "")
    sums = place.read(os.path.join(folder, "SHA256SUMS")).decode().split()[1::2]
    wanted(len(sums) == 12 and "KIT" in sums and "libexec/mikadocherry/mikadocherry" in sums, f"{sums} have sums")


@test
def pages(place):
    """the man pages render without warnings, have the version, and name each option that --help does"""
    with open(os.path.join(TOP, "VERSION")) as file:
        version = file.read().strip()
    for name in SCRIPTS:
        path = os.path.join(TOP, f"man/{name}.1")
        with open(path) as file:
            text = file.read().replace("\\-", "-")
        wanted(f'"mikadocherry {version}"' in text, f"{name}: another version")
        options = re.findall(r"--[a-z-]+", place.run([os.path.join(TOP, name), "--help"]).stdout.decode())
        missing = {it for it in options if it not in text and it not in ("--only-keep-debug",)}
        wanted(not missing, f"{name}: {missing} aren't named")
        for command in (["groff", "-man", "-Tutf8", "-ww", "-z"], ["mandoc", "-T", "lint", "-W", "warning"]):
            if shutil.which(command[0]):
                run = place.run([*command, path])
                wanted((run.returncode, run.stdout, run.stderr) == (0, b"", b""), f"{run}")


# Completes the last of its words, and says what it may become.
COMPLETING = """. "$0"; COMP_WORDS=("$@"); COMP_CWORD=$(($# - 1))
$(complete -p "$1" | grep -o "_mika[a-z_]*"); printf "%s|" "${COMPREPLY[@]}"
"""


@test
def completion(place):
    """bash completes commands, options and names of files"""
    place.write("some file", "")
    for words, said in (
        (["mikadocherry", "s"], "shrink|stat|"),
        (["mikadocherry", "--v"], "--version|"),
        (["mikadocherry", "stat", "so"], "some file|"),
        (["mikadocherry", "make", "so"], "|"),
        (["mikadocherry-tree", "--e"], "--exclude|"),
        (["mikadocherry-tree", "so"], "some file|"),
        (["mikadocherry-tree", "--jobs", "so"], "|"),
    ):
        place.says(["bash", "-c", COMPLETING, os.path.join(TOP, "completion", words[0]), *words], 0, said.encode(), "")
    with open(os.path.join(TOP, "completion/mikadocherry-tree")) as file:
        completed = set(re.findall(r"--[a-z-]+", file.read()))
    shown = set(re.findall(r"--[a-z-]+", place.run([os.path.join(TOP, "mikadocherry-tree"), "--help"]).stdout.decode()))
    wanted(shown <= completed, f"{shown - completed} aren't completed")


def main():
    parser = argparse.ArgumentParser(description=__doc__, formatter_class=argparse.RawDescriptionHelpFormatter)
    parser.add_argument("--program", default=BUILT)
    parser.add_argument("tests", nargs="*", help="names of tests; left out, all")
    words = parser.parse_args()
    program = executable(words.program)
    # who runs this in the background may have told it to ignore them
    for number in (signal.SIGTERM, signal.SIGHUP):
        signal.signal(number, signal.SIG_DFL)
    signal.signal(signal.SIGINT, signal.default_int_handler)
    return test.run(lambda folder: Place(program, folder), words.tests)


if __name__ == "__main__":
    sys.exit(main())
