#!/usr/bin/env python3
"""Runs mikadocherry-tree on trees of files that are made here, and tests what becomes of each file, what is kept of it,
and what happens where something fails, changes meanwhile or is killed.

  checks/tree.py                       with the built program, crates/shrink_app/out/shrink_app
  checks/tree.py --program PROGRAM     with another one
  checks/tree.py --stand-in            with a script in its place that knows the answers, where none is built

What the program has to write is known without it, as in checks/edge.py. Where it has to wait, fail or die, a script
stands in its place always. Each test prints one line. The last line is `N passed, M failed`, and the exit status is 1
where one failed.
"""
import argparse
import collections
import contextlib
import hashlib
import os
import pty
import random
import select
import shutil
import signal
import stat
import struct
import subprocess
import sys
import tempfile
import time

sys.dont_write_bytecode = True
TOP = os.path.dirname(os.path.dirname(os.path.abspath(__file__)))
sys.path.insert(0, os.path.join(TOP, "bench"))
sys.path.insert(0, os.path.join(TOP, "checks"))
from edge import ALONE, difference, no_ranks, pair_of_units, sections_of
from elf_files import elf_file
from harness import BUILT, SECONDS, Skipped, Tests, executable, is_alive, wait_for, wanted
from record_files import MAGIC

SCRIPT = os.path.join(TOP, "mikadocherry-tree")
test = Tests()

# The front of each script that stands in place of the program: it answers words that aren't four as the program does,
# and takes no words beyond ASCII, as the program takes none that aren't UTF-8.
FRONT = """#!/bin/sh
if [ $# != 4 ]; then echo words; exit 2; fi
LC_ALL=C
case "$2$3$4" in *[!\\ -~]*) echo words; exit 2 ;; esac
"""
# It looks up what it has to answer in a folder, by the digest of the file.
KNOWING = FRONT + """
answer={folder}/$(sha256sum <"$2" | cut -c1-64)
if [ -e "$answer.out" ]; then cat "$answer.out" >"$3" && cat "$answer.cert" >"$4" || exit 5; exit 0; fi
if [ -e "$answer.said" ]; then cat "$answer.said"; exit 3; fi
echo "refused Torn at 0"; exit 3
"""
# It writes a file without its last byte and a certificate without records, which will do where nobody reads them.
CUTTING = 'size=$(wc -c <"$2")\nhead -c $((size - 1)) "$2" >"$3"\necho DWMIN01 >"$4"\n'


def temporary(name):
    return os.fsencode(name).startswith(b".mikadocherry-")


class Place:
    """A folder for one test, with a tree of files in `tree`."""

    def __init__(self, program, folder):
        self.folder = os.fsencode(folder)
        os.chmod(folder, 0o755)
        os.mkdir(self.path("tree"))
        os.mkdir(self.path("answers"))
        self.program = program or self.script("knowing", KNOWING.format(folder=folder + "/answers"))

    def path(self, name):
        return os.path.join(self.folder, os.fsencode(name))

    def in_tree(self, name):
        return os.path.join(self.path("tree"), os.fsencode(name))

    def script(self, name, text):
        """A script in place of the program."""
        path = self.path(name)
        with open(path, "w") as file:
            file.write(text)
        os.chmod(path, 0o755)
        return os.fsdecode(path)

    def write(self, name, body, mode=0o644):
        """A file in the tree, in folders that are made for it."""
        path = self.in_tree(name)
        os.makedirs(os.path.dirname(path), exist_ok=True)
        with open(path, "wb") as file:
            file.write(body)
        os.chmod(path, mode)
        return path

    def read(self, name):
        with open(self.in_tree(name), "rb") as file:
            return file.read()

    def knows(self, source, **answers):
        """Tells the stand-in what becomes of a file: the bytes that are written and the certificate, or the line that
        refuses it."""
        for end, answer in answers.items():
            with open(self.path(f"answers/{hashlib.sha256(source).hexdigest()}.{end}"), "wb") as file:
                file.write(answer)

    def pair(self, count):
        """A file of so many units and what is written for it."""
        source, written = pair_of_units(count)
        for file in (source, written):
            self.knows(file, out=written, cert=certificate_of(count))
        return source, written

    def refused(self, source, line):
        self.knows(source, said=line)
        return source

    def kept(self):
        """What is in the folder for certificates, which is made where it isn't there."""
        os.makedirs(self.path("kept"), exist_ok=True)
        return self.files("kept")

    def files(self, top="tree"):
        """All names in a folder, with their bytes, or with where a symbolic link leads."""
        found = {}
        for folder, folders, names in os.walk(self.path(top)):
            for name in names + [it for it in folders if os.path.islink(os.path.join(folder, it))]:
                path = os.path.join(folder, name)
                key = os.path.relpath(path, self.path(top))
                if os.path.islink(path):
                    found[key] = os.readlink(path)
                else:
                    with open(path, "rb") as file:
                        found[key] = file.read()
        return found

    def command(self, words, program=None):
        return [sys.executable, SCRIPT, "--program", program or self.program, *(words or ["tree"])]

    def run(self, *words, status=0, program=None, **how):
        """Fails where the script doesn't end with this status; answers its standard output and its standard error."""
        how = {"cwd": self.folder, "stdout": subprocess.PIPE, "stderr": subprocess.PIPE, "timeout": SECONDS, **how}
        run = subprocess.run(self.command(words, program), **how)
        stdout, stderr = (run.stdout or b"").decode(), (run.stderr or b"").decode()
        wanted(run.returncode == status, f"{words}: status {run.returncode} and not {status}: {stdout!r}, {stderr!r}")
        wanted("Traceback" not in stderr, stderr)
        return stdout, stderr

    def keeps(self, *words, **how):
        """As run, and fails where a file of the tree differs then."""
        before = self.files()
        said = self.run(*words, **how)
        self.has(before)
        return said

    def has(self, files):
        """Fails where the tree doesn't have these files and no others."""
        found = self.files()
        for name in found.keys() | {os.fsencode(name) for name in files}:
            wanted(name in found, f"{name} is missing")
        for name, body in found.items():
            wanted(name in files, f"{name} is made")
            wanted(body == files[name], f"{name} has {difference(body, files[name])}")


def certificate_of(count):
    """The certificate of what is written for a file of so many units."""
    return MAGIC + no_ranks(count)


def counts(summary):
    """The numbers of a summary by their words, without those that are 0, and without the names of sections behind them."""
    pairs = (line.rsplit(": ", 1) for line in summary.splitlines())
    found = {words: int(number.split(" (")[0]) for words, number in pairs}
    return {words: number for words, number in found.items() if number}


def says(summary, numbers):
    found = counts(summary)
    wanted(found == numbers, f"{found} is said, and not {numbers}")


def debug_bytes(file):
    """How many bytes the debug sections of a file have."""
    return sum(len(section) for name, section in sections_of(file).items() if name.startswith(b".debug_"))


def bytes_said(pairs):
    """What a summary says of the bytes of files that are replaced, given what they had before and what is written."""
    found = {}
    for words, files in zip(("before", "after"), zip(*pairs)):
        found[f"file bytes {words}"] = sum(map(len, files))
        found[f"debug section bytes {words}"] = sum(map(debug_bytes, files))
    return found


def cut_bytes(source):
    """The same where a file loses its last byte, and with it the end of its section headers."""
    return {
        "file bytes before": len(source), "file bytes after": len(source) - 1, "debug section bytes before": debug_bytes(source)
    }


def object_file(whole):
    """The same file as an object file."""
    return whole[:16] + b"\1" + whole[17:]


def compressed(whole):
    """The same file with the flag SHF_COMPRESSED at its first section, which begins at 64."""
    flags_at = struct.unpack_from("<Q", whole, 40)[0] + 64 + 8
    return whole[:flags_at] + struct.pack("<Q", 0x800) + whole[flags_at + 8 :]


PLAIN = elf_file([(b".text", b"1234567"), (b".debugger", b"")])


def elf_32(order, name):
    """An ELF-32 file in a byte order (< or >) with one section of this name beside that of the names."""
    names = b"\0" + name + b"\0"
    head = struct.pack(f"{order}HHIIIIIHHHHHH", 2, 3, 1, 0, 0, 52 + len(names), 0, 52, 0, 0, 40, 2, 1)
    section = struct.pack(f"{order}10I", 1, 3, 0, 0, 52, len(names), 0, 0, 1, 0)
    return b"\x7fELF\1" + (b"\1" if order == "<" else b"\2") + b"\1" + bytes(9) + head + names + bytes(40) + section


@test
def files_of_all_kinds(place):
    """each file is replaced, refused by its kind, left or skipped, and counted so; a second run replaces none"""
    pairs = [place.pair(count) for count in (20, 30, 40)]
    for name, (source, _) in zip(("a", "b/c/d", "b/e.so"), pairs):
        place.write(name, source, 0o755)
    place.write("b/small", pairs[0][1])
    source = pairs[0][0]
    place.write("o.o", place.refused(object_file(source), b"refused FileType at 16\n"))
    place.write("b/p.o", place.refused(object_file(pairs[1][0]), b"refused FileType at 16\n"))
    place.write("z", place.refused(compressed(source), b"refused Compressed at 64\n"))
    macro = elf_file([(b".text", b"1234567"), (b".debug_macro", b"")])
    place.write("m", place.refused(macro, b"refused Companion at 71\n"))
    place.write("plain", PLAIN)
    place.write("alone", ALONE)
    for name, body in (("empty", b""), ("text", b"ELF"), ("\n", b"\x7fELG" + source[4:])):
        place.write(name, body)
    files = {**place.files(), **{name: pair[1] for name, pair in zip((b"a", b"b/c/d", b"b/e.so"), pairs)}}
    numbers = {"not smaller": 1, "refused": 4, "refused FileType": 2, "refused Compressed": 1, "refused Companion": 1}
    numbers["without debug sections"] = 2
    stdout, stderr = place.run()
    says(stdout, {"replaced": 3, **bytes_said(pairs), **numbers})
    wanted(stderr == "", stderr)
    place.has(files)
    says(place.keeps()[0], {**numbers, "not smaller": 4})


@test
def sections_of_refusals(place):
    """the summary has the sections of refusals with their counts, most first, where these are known, and --verbose too"""
    for number, name in enumerate([b".debug_names", b".debug_macro", b".debug_macro", b".gdb_index", b".debug_x\n"]):
        body = elf_file([(b".text", b"12345"), (b".debug_str", b""), (name, b"1"), (b".debug_frame", b"")])
        place.write(f"{number}", place.refused(body, b"refused Companion at 69\n"))
    place.write("o", place.refused(object_file(place.pair(20)[0]), b"refused FileType at 16\n"))
    # what follows the magic bytes is no header
    place.write("z", place.refused(b"\x7fELF\2\1", b"refused NotElf64 at 0\n"))
    stdout, stderr = place.keeps("--verbose", "tree")
    lines = [it for it in stdout.splitlines() if it.startswith("refused")]
    named = ".debug_macro 2, .debug_names 1, .debug_x\\x0a 1, .gdb_index 1"
    kinds = [f"refused Companion: 5 ({named})", "refused FileType: 1", "refused NotElf64: 1"]
    wanted(lines == ["refused: 7", *kinds], f"{lines} are said")
    wanted("tree/1: refused Companion in .debug_macro\n" in stderr, stderr)


def with_gap(source, gap):
    """The same file with these bytes before its table of sections, which follows the names of sections."""
    at = struct.unpack_from("<Q", source, 40)[0]
    moved = source[:40] + struct.pack("<Q", at + len(gap)) + source[48:at] + gap + source[at:]
    return moved


@test
def appended_bytes(place):
    """a file with bytes that no header, segment or section holds is left alone and counted, but for zeros of padding"""
    source, written = place.pair(20)
    padded = with_gap(source, bytes(24))
    place.knows(padded, out=written, cert=certificate_of(20))
    for name, body in (("one", source + b"\0"), ("many", source + bytes(100_000)), ("text", source + b"more")):
        place.write(name, body)
    place.write("gap", with_gap(source, bytes(7) + b"\1" + bytes(70_000)))
    place.write("padded", padded)
    place.write("kept", PLAIN + b"more")
    files = {**place.files(), b"padded": written}
    stdout, stderr = place.run("--verbose", "tree")
    numbers = {"has appended bytes": 4, "without debug sections": 1}
    says(stdout, {"replaced": 1, **bytes_said([(padded, written)]), **numbers})
    wanted("tree/gap: has appended bytes\n" in stderr, stderr)
    place.has(files)


@test
def excluded_names(place):
    """--exclude leaves names alone, of files and folders, and paths below DIR where it has a slash, and counts them"""
    source, written = place.pair(20)
    names = ["a.so", "b/a.so", "b/c", "b/d/c", "\udce9", "e/f", "g"]
    for name in names:
        place.write(os.fsencode(name), source)
    os.link(place.in_tree("g"), place.in_tree("b/g.so"))
    globs = ["*.so", "b/c", "*/d/", b"\xe9", "[e]"]
    files = place.files()
    stdout, stderr = place.run("--verbose", *(it for glob in globs for it in ("--exclude", glob)), "tree")
    # a file that has an excluded name too is left alone
    says(stdout, {"excluded": 7, "linked from outside": 1})
    wanted("tree/b/d: excluded\n" in stderr, stderr)
    place.has(files)
    says(place.keeps("--exclude", "tree", "--exclude", "c", "--exclude", "e", "--dry-run", "tree/b")[0], {
        "would be replaced": 1, **bytes_said([(source, written)]), "excluded": 1, "linked from outside": 1, "excluded": 2
    })
    says(place.keeps("--exclude", "f", "tree/e", "tree/e/f")[0], {"excluded": 1})


@test
def versions(place):
    """--version says that of the program"""
    with open(os.path.join(TOP, "VERSION")) as file:
        version = file.read()
    wanted(place.keeps("--version") == (f"mikadocherry-tree {version}", ""), "another one is said")


@test
def dry_run(place):
    """--dry-run says what would be, and leaves each file and inode as it is"""
    pair = place.pair(20)
    os.link(place.write("a", pair[0]), place.in_tree("b"))
    inode = os.stat(place.in_tree("a")).st_ino
    stdout, _ = place.keeps("--dry-run", "tree")
    says(stdout, {"would be replaced": 1, **bytes_said([pair])})
    wanted(os.stat(place.in_tree("b")).st_ino == os.stat(place.in_tree("a")).st_ino == inode, "an inode differs")


@test
def temporary_files_of_a_dry_run(place):
    """--dry-run makes its temporary files in TMPDIR, so that the folders of the tree may be read-only"""
    place.write("a/b", place.pair(20)[0])
    place.kept()
    os.mkdir(place.path("elsewhere"))
    environment = {**os.environ, "TMPDIR": os.fsdecode(place.path("elsewhere"))}
    files = place.files()
    with waiting_runs(place, *KEPT, "--dry-run", "tree", env=environment) as (run, folder):
        names = os.listdir(place.path("elsewhere"))
        wanted(len(names) == 2 and all(map(temporary, names)), f"{names} are there")
        place.has(files)
        has_kept(place, {})
        wanted(go_on(run, folder)[0] == 0, "the run has failed")
    wanted(os.listdir(place.path("elsewhere")) == [], "a temporary file is left")
    os.chmod(place.in_tree("a"), 0o555)
    stdout = run_without_rights(place, 0, "--dry-run")[0]
    wanted(counts(stdout)["would be replaced"] == 1, stdout)
    os.chmod(place.in_tree("a"), 0o755)
    place.has(files)


def properties(path):
    """What is kept of a file."""
    it = os.lstat(path)
    attributes = {name: os.getxattr(path, name) for name in os.listxattr(path)}
    return stat.filemode(it.st_mode), it.st_uid, it.st_gid, it.st_atime_ns, it.st_mtime_ns, attributes


def keeps_properties(place, names):
    before = {name: properties(place.in_tree(name)) for name in names}
    says_replaced = counts(place.run()[0]).get("replaced")
    wanted(says_replaced == len(names), f"{says_replaced} files are replaced, and not {len(names)}")
    for name in names:
        found = properties(place.in_tree(name))
        wanted(found == before[name], f"{name}: {found} and not {before[name]}")


@test
def modes_and_times(place):
    """modes with setuid, setgid and sticky bits are kept, and both times to the nanosecond"""
    modes = (0o755, 0o4755, 0o2711, 0o6555, 0o1644, 0o400, 0o444, 0o640)
    source, accessed, modified = place.pair(20)[0], 1_111_111_111_123_456_789, 1_222_222_222_987_654_321
    for mode in modes:
        os.utime(place.write(f"{mode:o}", source, mode), ns=(accessed + mode, modified - mode))
    keeps_properties(place, [f"{mode:o}" for mode in modes])


@test
def owners(place):
    """owner and group are kept, with the setuid bit and with capabilities, which a change of the owner takes away"""
    if os.getuid() != 0:
        raise Skipped("only root can give files away")
    source = place.pair(20)[0]
    for name, mode in (("a", 0o4755), ("b", 0o2755), ("c", 0o600), ("d", 0o755)):
        path = place.write(name, source)
        os.chown(path, 1_234, 2_345)
        os.chmod(path, mode)
    with contextlib.suppress(OSError):
        os.setxattr(path, "security.capability", struct.pack("<5I", 0x2000001, 1 << 10, 0, 0, 0))
    keeps_properties(place, ["a", "b", "c", "d"])


def access_list(*entries):
    return struct.pack("<I", 2) + b"".join(struct.pack("<HHI", tag, rights, who) for tag, rights, who in entries)


@test
def attributes(place):
    """extended attributes and access control lists are kept, and none is added that the folder has for new files"""
    source, nobody = place.pair(20)[0], 0xFFFFFFFF
    rights = access_list((1, 6, nobody), (2, 4, 1_234), (4, 4, nobody), (16, 4, nobody), (32, 0, nobody))
    path = place.write("a", source)
    plain = place.write("b/b", source, 0o640)
    try:
        os.setxattr(path, "user.one", b"\0some\xff")
        os.setxattr(path, "user.two", b"")
        os.setxattr(path, "system.posix_acl_access", rights)
        os.setxattr(os.path.dirname(plain), "system.posix_acl_default", rights)
    except OSError as why:
        raise Skipped(f"the file system has none: {why.strerror}") from None
    keeps_properties(place, ["a", "b/b"])
    wanted(not os.listxattr(plain), "a file has got attributes of its folder")


def inodes(place, names):
    return {os.stat(place.in_tree(name)).st_ino for name in names}


@test
def links_inside(place):
    """the names of one file, in several folders and words, stay names of one file, with the new contents"""
    source, written = place.pair(20)
    names = ["a", "b", "c/d", "c/e/f"]
    place.write("c/e/x", PLAIN)
    os.link(place.write("a", source), place.in_tree("b"))
    os.link(place.in_tree("a"), place.in_tree("c/d"))
    os.link(place.in_tree("a"), place.in_tree("c/e/f"))
    before, files = inodes(place, names), place.files()
    stdout, _ = place.run("tree/c", "tree/a", "tree/b")
    says(stdout, {"replaced": 1, **bytes_said([(source, written)]), "without debug sections": 1})
    place.has({**files, **{os.fsencode(name): written for name in names}})
    after = inodes(place, names)
    wanted(len(after) == 1 and after != before, f"inodes {before} became {after}")
    wanted(os.stat(place.in_tree("a")).st_nlink == 4, "there are more or fewer names")


@test
def links_to_the_outside(place):
    """a file with a name outside the trees is left alone and counted, also where one name inside is found twice"""
    os.link(place.write("a/a", place.pair(20)[0]), place.path("outside"))
    before = os.stat(place.path("outside"))
    several = ["tree", "tree/a", "tree/a/../a/a"], ["tree/a/a", "tree/a/a", "./tree/a/a"]
    for words in (["tree"], ["tree", "tree"], *several):
        says(place.keeps(*words)[0], {"linked from outside": 1})
    wanted("tree/a/a: linked from outside" in place.keeps("--verbose", "tree")[1], "the file isn't named")
    after = os.stat(place.path("outside"))
    wanted((after.st_ino, after.st_nlink, after.st_ctime_ns) == (before.st_ino, 2, before.st_ctime_ns), "it differs")


KEPT = ["--certificates", "kept"]


def has_kept(place, certificates):
    """Fails where other certificates than these are kept, or none where there are none."""
    found = place.kept()
    wanted(found == certificates, f"{list(found)} are kept, or have other bytes than is wanted")


@test
def certificates(place):
    """--certificates keeps the certificate of each file that is replaced, at its path, and no others"""
    pairs = [place.pair(count) for count in (20, 30, 40)]
    for name, (source, _) in zip(("a", "b/c/d", "b/\udce9"), pairs):
        place.write(os.fsencode(name), source)
    place.write("small", pairs[0][1])
    place.write("o.o", place.refused(object_file(pairs[0][0]), b"refused FileType at 16\n"))
    place.write("plain", PLAIN)
    has_kept(place, {})
    stdout, stderr = place.run(*KEPT, "tree")
    wanted(counts(stdout)["replaced"] == 3 and stderr == "", f"{stdout!r} and {stderr!r}")
    names = (b"a.cert", b"b/c/d.cert", b"b/\xe9.cert")
    has_kept(place, {name: certificate_of(count) for name, count in zip(names, (20, 30, 40))})
    mask = os.umask(0)
    os.umask(mask)
    modes = [stat.S_IMODE(os.stat(place.path(b"kept/" + name)).st_mode) for name in names]
    wanted(modes == [0o666 & ~mask] * 3, f"the certificates have the modes {modes}")
    wanted(not any(it.startswith(b".") for it in os.listdir(place.path("kept"))), "a temporary file is left")
    # nothing is replaced, and then one file, which has become smaller
    place.run(*KEPT, "tree")
    has_kept(place, {name: certificate_of(count) for name, count in zip(names, (20, 30, 40))})
    place.write("b/c/d", place.pair(10)[0])
    place.run("--certificates", "kept/", "tree/")
    has_kept(place, {name: certificate_of(count) for name, count in zip(names, (20, 10, 40))})


@test
def names_of_certificates(place):
    """a certificate has the path below the DIR in which its file was found first; a file that is given has its name"""
    for name, count in (("a", 20), ("b/c/d", 30), ("e/f", 40)):
        place.write(name, place.pair(count)[0])
    os.link(place.in_tree("a"), place.in_tree("b/a"))
    place.kept()
    place.run(*KEPT, "tree/b", "./tree/e/../e/f", "tree")
    has_kept(place, {b"a.cert": certificate_of(20), b"c/d.cert": certificate_of(30), b"f.cert": certificate_of(40)})


@test
def certificates_thrown_away(place):
    """the program gets /dev/null for a certificate that isn't kept, and --dry-run keeps none and makes no folder"""
    place.write("a/b", place.pair(20)[0])
    place.kept()
    says(place.keeps("--dry-run", *KEPT, "tree", status=0)[0].split("file bytes")[0], {"would be replaced": 1})
    wanted(os.listdir(place.path("kept")) == [], "something is kept")
    program = place.script("thrown", FRONT + '[ "$4" = /dev/null ] || exit 1\n' + CUTTING)
    wanted(counts(place.run(program=program)[0])["replaced"] == 1, "it isn't replaced")


@test
def certificates_that_cannot_be_kept(place):
    """where a certificate can't be kept the file stays, and it is a fault with its name, also with --dry-run"""
    names = ("folder", "elf", "link", "empty", "below/file", "same")
    for number, name in enumerate(names):
        place.write(name, place.pair(20 + number)[0])
    place.write("second/same", place.pair(30)[0])
    place.write("good", place.pair(31)[0])
    place.kept()
    os.mkdir(place.path("kept/folder.cert"))
    place.write("../kept/elf.cert", PLAIN)
    place.write("../kept/other", certificate_of(1))
    os.symlink("other", place.path("kept/link.cert"))
    place.write("../kept/empty.cert", b"")
    place.write("../kept/below", b"")
    before = place.kept()
    stderr = place.keeps("--dry-run", *KEPT, "tree", "tree/second", status=1)[1]
    has_kept(place, before)
    second = place.run(*KEPT, "tree", "tree/second", status=1)[1]
    wanted(sorted(stderr.splitlines()) == sorted(second.splitlines()), f"{stderr!r} and {second!r} are said")
    for name in ("folder", "elf", "link", "empty", "below/file"):
        wanted(f"tree/{name}: its certificate can't be kept" in stderr, f"{name}: {stderr!r} is said")
    # the same path below two folders: here the first one has both
    has_kept(place, {**before, **{
        b"good.cert": certificate_of(31), b"same.cert": certificate_of(25), b"second/same.cert": certificate_of(30)
    }})


@test
def certificates_of_one_name(place):
    """where two files have one path below two folders the second stays, and it is a fault with its name"""
    pairs = [place.pair(count) for count in (20, 30)]
    place.write("one/a", pairs[0][0])
    place.write("two/a", pairs[1][0])
    place.kept()
    stdout, stderr = place.run(*KEPT, "tree/one", "tree/two", status=1)
    wanted("tree/two/a: its certificate would have the name of that of tree/one/a" in stderr, stderr)
    place.has({b"one/a": pairs[0][1], b"two/a": pairs[1][0]})
    has_kept(place, {b"a.cert": certificate_of(20)})


@test
def folders_for_certificates(place):
    """a FOLDER that isn't there or isn't one has the status 1; one that can't be written is a fault for each file"""
    place.write("a", place.pair(20)[0])
    for folder in ("missing", "tree/a"):
        stdout, stderr = place.keeps("--certificates", folder, "tree", status=1)
        wanted(stdout == "" and f"{folder} isn't a folder" in stderr, f"{stdout!r} and {stderr!r}")
    place.kept()
    os.chmod(place.path("kept"), 0o555)
    stdout, stderr = run_without_rights(place, 1, *KEPT)
    says(stdout, {"faults": 1})
    wanted("tree/a: no temporary file can be made in kept" in stderr, stderr)
    os.chmod(place.path("kept"), 0o755)
    run_without_rights(place, 0, *KEPT)
    has_kept(place, {b"a.cert": MAGIC})


@test
def other_certificates(place):
    """a program that writes no certificate, or can't write it, is a fault, and the file stays"""
    place.write("a", place.pair(20)[0])
    place.kept()
    for number, (text, words) in enumerate((
        (CUTTING + ': >"$4"\n', "no certificate"),
        (CUTTING + 'echo ELF >"$4"\n', "no certificate"),
        (CUTTING + "exit 5\n", "its certificate: the disk may be full"),
    )):
        stderr = place.keeps(*KEPT, "tree", status=1, program=place.script(f"other{number}", FRONT + text))[1]
        wanted("tree/a: " in stderr and words in stderr, f"{text}: {stderr!r} is said")
        has_kept(place, {})


@test
def certificates_on_a_full_disk(place):
    """where there is no room for a certificate the file stays, and no temporary file is left"""
    place.write("a", place.pair(20)[0])
    os.mkdir(place.path("kept"))
    with mounted(place.path("kept"), 65_536):
        large = FRONT + CUTTING + 'head -c 1000000 /dev/zero >>"$4" || exit 5\n'
        stderr = place.keeps(*KEPT, "tree", status=1, program=place.script("large", large))[1]
        wanted("tree/a: " in stderr and "disk" in stderr, stderr)
        has_kept(place, {})


@test
def symbolic_links(place):
    """symbolic links to files and folders stay as they are, and what they name outside the tree does too"""
    source, written = place.pair(20)
    place.write("a", source)
    place.write("../other/file", source)
    targets = {"to_a": "a", "to_file": "../other/file", "to_folder": "../other", "to_none": "none", "up": "."}
    for name, target in targets.items():
        os.symlink(target, place.in_tree(name))
    files = {**place.files(), b"a": written}
    wanted(counts(place.run()[0])["replaced"] == 1, "more or less than one file is replaced")
    place.has(files)
    wanted(place.read("../other/file") == source, "a file outside the tree differs")
    for name in ("to_a", "to_folder"):
        wanted(f"tree/{name}: " in place.keeps(f"tree/{name}", status=1)[1], f"{name} as a word isn't named")


@test
def names_of_files(place):
    """names with spaces, newlines, a leading - and bytes that aren't UTF-8, also of folders, are names like others"""
    source, written = place.pair(20)
    names = [b"a b", b"a\nb", "größer".encode(), b"-", b"--help"]
    names += [b"\xff", b"\xc3\n", b"\xed\xa0\x80", b"f\xe9 /\xe9", b"f\xe9 /plain"]
    for name in names:
        place.write(name, source)
    os.link(place.in_tree(b"\xff"), place.in_tree(b"f\xe9 /linked\xff"))
    stdout, stderr = place.run()
    wanted(counts(stdout)["replaced"] == len(names) and stderr == "", f"{stdout!r} and {stderr!r}")
    place.has({name: written for name in [*names, b"f\xe9 /linked\xff"]})
    wanted(len(inodes(place, [b"\xff", b"f\xe9 /linked\xff"])) == 1, "a link is broken")
    place.write(b"again\xe9\n", source)
    lines = place.run("--verbose", b"tree/again\xe9\n")[1].splitlines()
    wanted(lines == [r"mikadocherry-tree: tree/again\xe9\n: replaced"], f"{lines!r} are said")


@test
def other_classes(place):
    """ELF-32 files in both byte orders are skipped where they have no debug sections, and else refused"""
    for order, name in (("<", "little"), (">", "big")):
        place.write(name + "-plain", elf_32(order, b".text"))
        place.write(name, place.refused(elf_32(order, b".debug_info"), b"refused NotElf64 at 0\n"))
    place.write("old", place.refused(elf_file([(b".zdebug_info", b"12345")]), b"refused Compressed at 64\n"))
    # without a section of names all names are empty
    file = elf_file([(b".debug_info", b"12345")])
    place.write("nameless", file[:62] + bytes(2) + file[64:])
    place.write("sectionless", ALONE[:62] + b"\1\0")
    numbers = {"refused": 3, "refused NotElf64": 2, "refused Compressed": 1, "without debug sections": 4}
    says(place.keeps()[0], numbers)


@test
def damaged_files(place):
    """files that are cut or have other bytes in their headers are no fault, whatever they hold"""
    whole, rng = bytearray(place.pair(3)[0]), random.Random(4)
    headers_at = struct.unpack_from("<Q", whole, 40)[0]
    for size in [*range(4, 65, 3), headers_at, headers_at + 64, len(whole) - 1]:
        place.write(f"cut{size}", whole[:size])
    for at in [*range(24, 64, 8), *range(headers_at, len(whole) - 7, 8)]:
        place.write(f"large{at}", whole[:at] + b"\xff" * 8 + whole[at + 8 :])
    for number in range(100):
        damaged = bytearray(whole)
        for _ in range(rng.randrange(1, 4)):
            at = rng.choice([rng.randrange(4, 64), rng.randrange(headers_at, len(whole)), rng.randrange(40, 64)])
            damaged[at] = rng.choice([0, 1, 127, 128, 255, rng.randrange(256)])
        place.write(f"damaged{number}", damaged)
    wanted("faults" not in counts(place.keeps("--dry-run", "tree")[0]), "a fault is counted")


@test
def wrong_words(place):
    """wrong words have the status 2; a DIR that isn't there is named with the status 1, and the others are done"""
    source, written = place.pair(20)
    place.write("a", source)
    for words in ("--grow tree", "--jobs 0 tree", "--jobs many tree", "--dry tree", "--dry-run"):
        place.keeps(*words.split(), status=2)
    stdout, stderr = place.run("missing", "tree", "/dev/null", status=1)
    wanted(counts(stdout)["faults"] == 2 and counts(stdout)["replaced"] == 1, stdout)
    wanted("missing: " in stderr and "/dev/null: " in stderr, stderr)
    place.has({b"a": written})


@test
def which_program(place):
    """the program beside the script is found, also through a link to it, else the one on the PATH, else it is said"""
    source, written = place.pair(20)
    for folder in ("beside", "bin", "none"):
        os.mkdir(place.path(folder))
    link = place.path("bin/linked")
    os.symlink("../beside/mikadocherry-tree", link)
    place.script("beside/mikadocherry", FRONT + f'exec "{place.program}" "$@"\n')
    place.script("bin/mikadocherry", FRONT + f'exec "{place.program}" "$@"\n')
    for folder in ("beside", "none"):
        shutil.copy(SCRIPT, place.path(f"{folder}/mikadocherry-tree"))
        shutil.copytree(os.path.join(TOP, "launcher"), os.fsdecode(place.path(f"{folder}/launcher")))
    path = os.environ["PATH"] + ":"
    on_path = os.fsdecode(place.path("bin")) + ":" + path
    # One may be installed on this machine.
    without = ":".join(folder for folder in path.split(":") if not shutil.which("mikadocherry", path=folder or "."))
    for script, path, status in (
        (place.path("beside/mikadocherry-tree"), path, 0),
        (link, path, 0),
        (place.path("none/mikadocherry-tree"), on_path, 0),
        (place.path("none/mikadocherry-tree"), without, 1),
    ):
        place.write("a", source)
        run = subprocess.run(
            [sys.executable, script, "tree"], cwd=place.folder, env={**os.environ, "PATH": path}, capture_output=True
        )
        wanted(run.returncode == status, f"{script}: {run}")
        place.has({b"a": source if status else written})


@test
def missing_parts(place):
    """a script without the file that it shares with the launcher says so, with the status 1"""
    os.mkdir(place.path("alone"))
    shutil.copy(SCRIPT, place.path("alone/mikadocherry-tree"))
    run = subprocess.run([sys.executable, place.path("alone/mikadocherry-tree"), "tree"], cwd=place.folder, capture_output=True)
    wanted(run.returncode == 1 and run.stderr.count(b"\n") == 1 and b"elf_headers.py" in run.stderr, f"{run}")


@test
def installed(place):
    """what is installed below another folder finds the launcher and the program, and so does a link to it"""
    if not shutil.which("make"):
        raise Skipped("there is no make")
    program = place.script("built", FRONT + f'exec "{place.program}" "$@"\n')
    command = ["make", "-C", TOP, "install", f"PROGRAM={program}", f"PACKAGES={program}", "DESTDIR=" + os.fsdecode(place.path("a b")), "PREFIX=/usr"]
    how = {"cwd": place.folder, "capture_output": True, "timeout": SECONDS}
    run = subprocess.run(command, **how)
    wanted(run.returncode == 0, f"it fails: {run}")
    source, written = place.pair(20)
    os.symlink("a b/usr/bin/mikadocherry-tree", place.path("linked"))
    for script in ("a b/usr/bin/mikadocherry-tree", "linked"):
        place.write("a", source)
        run = subprocess.run([sys.executable, place.path(script), "tree"], **how)
        wanted(run.returncode == 0 and run.stderr == b"", f"it fails: {run}")
        place.has({b"a": written})
    wanted(not os.path.exists(place.path("a b/usr/libexec/mikadocherry/__pycache__")), "compiled Python is left")


@test
def other_programs(place):
    """a PROGRAM that is missing, can't be run or isn't mikadocherry has the status 1, and no file differs"""
    place.write("a", place.pair(20)[0])
    broken = place.script("broken", "\x7fELF")
    text = place.script("text", FRONT)
    os.chmod(text, 0o644)
    other = place.script("other", "#!/bin/sh\necho words\n")
    for program in ("missing", "tree", text, broken, other, "/bin/true", "/bin/cat"):
        stdout, stderr = place.keeps(status=1, program=program)
        wanted(stdout == "" and stderr.count("\n") == 1, f"{program}: {stdout!r} and {stderr!r} are said")


@test
def failing_programs(place):
    """each other way in which the program ends is a fault with words, and no file differs"""
    place.write("a", place.pair(20)[0])
    place.write("b", place.pair(30)[0])
    for number, (text, words) in enumerate((
        ("exit 2", "words"),
        ("exit 4", "read"),
        ("exit 5", "disk"),
        ("exit 6", "memory"),
        ("echo as it rains >&2; exit 70", "(as it rains)"),
        ("echo as it rains >&2; LC_ALL=none bash -c 'exit 70'", "(as it rains)"),
        ("exit 1", "status 1"),
        ("exit 3", "status 3"),
        ("echo refused; exit 3", "status 3"),
        ("echo refused Torn at 1 and more; exit 3", "status 3"),
        ("kill -KILL $$", "SIGKILL"),
        ("kill -SEGV $$", "SIGSEGV"),
        (":", "ELF header"),
        ('head -c 100 /dev/zero >"$3"', "ELF header"),
        ('head -c 60 "$2" >"$3"', "ELF header"),
        ('rm "$3"; exit 4', "read"),
    )):
        program = place.script(f"failing{number}", FRONT + "ulimit -c 0\n" + text + "\n")
        stdout, stderr = place.keeps(status=1, program=program)
        says(stdout, {"faults": 2})
        for name in ("a", "b"):
            line = next((it for it in stderr.splitlines() if f" tree/{name}: " in it), "")
            wanted(words in line, f"{text}: {stderr!r} is said")


@test
def wanted_memory(place):
    """with --keep-going files for which memory was wanting are counted and left, and without it they are faults"""
    names = ["a", "b"]
    for name in names:
        place.write(name, place.pair(20)[0])
    program = place.script("hungry", FRONT + "exit 6\n")
    stdout, stderr = place.keeps("--keep-going", "--verbose", "tree", program=program)
    says(stdout, {"wanted memory": 2})
    wanted("tree/a: wanted memory\n" in stderr, stderr)
    stdout, stderr = place.keeps(program=program, status=1)
    says(stdout, {"faults": 2})
    wanted(all(f"tree/{name}: memory was wanting" in stderr for name in names), stderr)


@test
def timeouts(place):
    """--timeout ends the program with what it has started, as a fault or, with --keep-going, as what is counted and left"""
    for name in ("a", "b"):
        place.write(name, place.pair(20)[0])
    program = place.script("slow", FRONT + "sleep 60 & wait\n")
    start = time.monotonic()
    stdout, stderr = place.keeps("--timeout", "0.3", "tree", status=1, program=program)
    says(stdout, {"faults": 2})
    wanted("tree/a: the program took longer than 0.3 seconds (--timeout)\n" in stderr, stderr)
    says(place.keeps("--keep-going", "--timeout", "0.3", "tree", program=program)[0], {"took too long": 2})
    wanted(time.monotonic() - start < 20, "it took its time")
    wait_for(lambda: not runs_in(place.folder), "a program doesn't end")
    place.keeps("--timeout", "0", "tree", status=2)
    stubborn = place.script("stubborn", FRONT + "trap '' TERM\nwhile true; do sleep 1; done\n")
    says(place.keeps("--keep-going", "--timeout", "0.3", "tree", program=stubborn)[0], {"took too long": 2})
    wait_for(lambda: not runs_in(place.folder), "a program doesn't end")


@test
def standard_output_full(place):
    """a summary that standard output doesn't take has the status 1"""
    if not os.path.exists("/dev/full"):
        raise Skipped("there is no /dev/full")
    with open("/dev/full", "wb") as full:
        wanted("standard output" in place.run(status=1, stdout=full)[1], "it isn't said")


@contextlib.contextmanager
def mounted(folder, size):
    """A small file system in a folder."""
    command = ["mount", "-t", "tmpfs", "-o", f"size={size},mode=755", "none", folder]
    if os.getuid() != 0 or not shutil.which("mount"):
        raise Skipped("only root can mount a small file system")
    if subprocess.run(command, capture_output=True).returncode != 0:
        raise Skipped("no small file system can be mounted")
    try:
        yield
    finally:
        subprocess.run(["umount", "-l", folder], check=True)


@test
def full_disk(place):
    """on a full disk the old file stays, the temporary one is removed, and a file for which there is room is shrunk"""
    large, small = place.pair(8_000), place.pair(20)
    with mounted(place.path("tree"), len(large[0]) + 65_536):
        place.write("large", large[0])
        place.write("small", small[0])
        stdout, stderr = place.run("--jobs", "1", "tree", status=1)
        wanted(counts(stdout)["faults"] == 1, stdout)
        wanted("tree/large: " in stderr and "disk" in stderr, stderr)
        place.has({b"large": large[0], b"small": small[1]})


def run_without_rights(place, status, *words):
    """As run, with a script in place of the program, by a user who may do nothing but what the owner of a file may."""
    command = place.command([*words, "tree"], place.script("cutting", FRONT + CUTTING))
    if os.getuid() == 0:
        if not shutil.which("setpriv"):
            raise Skipped("there is no setpriv to drop root's rights")
        command = ["setpriv", "--bounding-set=-all", "--inh-caps=-all", *command]
    run = subprocess.run(command, cwd=place.folder, capture_output=True, timeout=SECONDS)
    wanted(run.returncode == status, f"status {run.returncode} and not {status}: {run}")
    return run.stdout.decode(), run.stderr.decode()


@test
def folders_that_are_read_only(place):
    """a file in a folder that can't be written is a fault with its name, and so is one with another name there"""
    sources = [place.pair(count)[0] for count in (20, 30, 40)]
    place.write("read_only/a", sources[0])
    os.link(place.write("b/b", sources[1]), place.in_tree("read_only/b"))
    place.write("c", sources[2])
    files = {**place.files(), b"c": sources[2][:-1]}
    os.chmod(place.in_tree("read_only"), 0o555)
    stdout, stderr = run_without_rights(place, 1)
    place.has(files)
    says(stdout, {"replaced": 1, **cut_bytes(sources[2]), "faults": 2})
    wanted("tree/read_only/a: no temporary file" in stderr and "tree/b/b: no temporary file" in stderr, stderr)
    os.chmod(place.in_tree("read_only"), 0o755)
    wanted(counts(run_without_rights(place, 0)[0])["replaced"] == 3, "not all are replaced in folders with rights")


@test
def files_that_cannot_be_read(place):
    """a file or a folder that can't be read is a fault with its name"""
    source = place.pair(20)[0]
    for path in (place.write("a", source), os.path.dirname(place.write("b/c", source))):
        os.chmod(path, 0)
    stdout, stderr = run_without_rights(place, 1)
    says(stdout, {"faults": 2})
    wanted("tree/a: it can't be read" in stderr and "tree/b: it can't be read" in stderr, stderr)
    os.chmod(place.in_tree("b"), 0o755)


@test
def owners_that_cannot_be_kept(place):
    """a file whose owner or group can't be kept is a fault and stays as it is"""
    if os.getuid() != 0:
        raise Skipped("only root can give files away")
    paths = [place.write(name, place.pair(20)[0]) for name in ("a", "b")]
    os.chown(paths[0], 1_234, -1)
    os.chown(paths[1], -1, 2_345)
    before = [(os.lstat(path).st_ino, os.lstat(path).st_ctime_ns) for path in paths]
    stdout, stderr = run_without_rights(place, 1)
    wanted([(os.lstat(path).st_ino, os.lstat(path).st_ctime_ns) for path in paths] == before, "a file differs")
    says(stdout, {"faults": 2})
    wanted("tree/a: its owner" in stderr and "tree/b: its owner" in stderr, stderr)


# It says that it runs, and waits until it may go on, but at most for so long.
WAITING = FRONT + """
touch "{folder}/begun-$$"
for _ in $(seq 2000); do [ -e "{folder}/go" ] && break; sleep 0.02; done
"""


def runs_in(folder):
    """Whether a process has this working folder, as the programs of a killed run still have for a while."""
    for process in os.listdir("/proc"):
        with contextlib.suppress(OSError):
            if process.isdigit() and os.readlink(os.fsencode(f"/proc/{process}/cwd")) == folder:
                return True
    return False


@contextlib.contextmanager
def waiting_runs(place, *words, count=1, **how):
    """A run whose programs wait for a file `go`, so many of which have begun. Nothing is left of it at the end."""
    folder = tempfile.mkdtemp(dir=os.fsdecode(place.folder))
    command = place.command(words, place.script("waiting", WAITING.format(folder=folder) + CUTTING))
    pipe = subprocess.PIPE
    run = subprocess.Popen(command, cwd=place.folder, **{"stdout": pipe, "stderr": pipe, **how})
    try:
        wait_for(lambda: len(os.listdir(folder)) >= count, "no program runs")
        yield run, folder
    finally:
        run.kill()
        go_on(run, folder)
        wait_for(lambda: not runs_in(place.folder), "a program doesn't end")


def go_on(run, folder):
    open(os.path.join(folder, "go"), "w").close()
    stdout, stderr = (it or b"" for it in run.communicate(timeout=SECONDS))
    return run.returncode, stdout.decode(), stderr.decode()


def appended(path):
    with open(path, "ab") as file:
        file.write(b"more")


def written_again(path):
    with open(path, "r+b") as file:
        file.write(file.read(8))


def renamed_over(path):
    shutil.copy2(path, path + b".other")
    os.rename(path + b".other", path)


@test
def files_that_change(place):
    """a file that is written, replaced, removed, linked or gets another mode meanwhile is a fault and stays as it is"""
    source = place.pair(20)[0]
    changes = {
        "appended": appended,
        "written": written_again,
        "renamed": renamed_over,
        "removed": os.unlink,
        "mode": lambda path: os.chmod(path, 0o600),
        "linked": lambda path: os.link(path, path + b".link"),
        "second": lambda path: renamed_over(place.in_tree("second name")),
    }
    for name in changes:
        place.write(name, source)
    os.link(place.in_tree("second"), place.in_tree("second name"))
    place.write("same", source)
    place.kept()
    with waiting_runs(place, *KEPT, "--jobs", "8", "tree", count=len(changes) + 1) as (run, folder):
        for name, change in changes.items():
            change(place.in_tree(name))
        files = {name: body for name, body in place.files().items() if not temporary(name)}
        files[b"same"] = source[:-1]
        status, stdout, stderr = go_on(run, folder)
    wanted(status == 1, f"status {status}")
    says(stdout, {"replaced": 1, **cut_bytes(source), "faults": len(changes)})
    for name in changes:
        wanted(f"tree/{name}: " in stderr, f"{name} isn't named in {stderr!r}")
    place.has(files)
    has_kept(place, {b"same.cert": MAGIC})


@test
def so_many_at_once(place):
    """as many programs run at once as --jobs says, or as there are processors"""
    for number in range(9):
        place.write(f"{number}", place.pair(20)[0])
    for words, count in ((["--jobs", "3"], 3), ([], min(9, len(os.sched_getaffinity(0))))):
        with waiting_runs(place, *words, "--dry-run", "tree", count=count) as (run, folder):
            time.sleep(0.2)
            begun = len(os.listdir(folder))
            wanted(begun == count, f"{begun} run at once and not {count}")
            status, stdout, _ = go_on(run, folder)
            wanted(status == 0 and counts(stdout)["would be replaced"] == 9, stdout)


@test
def signals_that_stop(place):
    """SIGINT, SIGTERM and SIGHUP end the run and its programs, no temporary file is left, and no file differs"""
    for number in range(6):
        place.write(f"{number}/f", place.pair(20)[0])
    files = place.files()
    for number in (signal.SIGINT, signal.SIGTERM, signal.SIGHUP):
        has_kept(place, {})
        with waiting_runs(place, *KEPT, "--jobs", "4", "tree", count=4) as (run, folder):
            wanted(len(place.kept()) == 4, "there aren't four certificates begun")
            modes = [os.stat(place.in_tree(name)).st_mode for name in place.files().keys() - files.keys()]
            wanted(modes == [stat.S_IFREG | 0o600] * 4, f"not 4 files of the owner alone: {modes}")
            begun = [name.split("-")[1] for name in os.listdir(folder)]
            run.send_signal(number)
            said = run.communicate(timeout=SECONDS)
            wanted(run.returncode == -number, f"the run has ended with {run.returncode}")
            wanted(said == (b"", f"mikadocherry-tree: stopped by {number.name}\n".encode()), f"{said} is said")
            wanted(not any(os.path.exists(f"/proc/{pid}") for pid in begun), "a program still runs")
        place.has(files)


@test
def signal_amid_a_build(place):
    """SIGTERM ends the run also while a launcher builds, with all that this has started"""
    place.write("a", place.pair(20)[0])
    building = 'touch begun\n(sleep 60; echo words)\nexit 2\n'
    command = place.command((), place.script("building", "#!/bin/sh\n" + building))
    run = subprocess.Popen(command, cwd=place.folder, stdout=subprocess.PIPE, stderr=subprocess.PIPE)
    wait_for(lambda: os.path.exists(place.path("begun")), "no program runs")
    run.terminate()
    run.communicate(timeout=30)
    wanted(run.returncode == -signal.SIGTERM, f"the run has ended with {run.returncode}")
    wait_for(lambda: not runs_in(place.folder), "a program doesn't end")


@test
def killed_runs(place):
    """the programs of a run that is killed end with it, also where SIGTERM was ignored before it"""
    for number in range(4):
        place.write(f"{number}", place.pair(20)[0])
    for ignores in (False, True):
        before = signal.signal(signal.SIGTERM, signal.SIG_IGN) if ignores else signal.getsignal(signal.SIGTERM)
        try:
            with waiting_runs(place, "--jobs", "4", "tree", count=4) as (run, folder):
                begun = [name.split("-")[1] for name in os.listdir(folder)]
                run.kill()
                wait_for(lambda: not any(is_alive(pid) for pid in begun), "a program still runs")
                wanted(not os.path.exists(os.path.join(folder, "go")), "they were let go")
        finally:
            signal.signal(signal.SIGTERM, before)


@test
def runs_side_by_side(place):
    """the temporary files of another run that lives are counted as such, and not as left by a killed one"""
    for number in range(3):
        place.write(f"{number}", place.pair(20)[0])
    with waiting_runs(place, "--jobs", "3", "tree", count=3) as (run, folder):
        place.write(".mikadocherry-999999999-0.tmp", b"")
        # lives, but is no such run
        place.write(f".mikadocherry-{os.getpid()}-0.tmp", b"")
        stdout, stderr = place.run("--verbose", "--dry-run", "--exclude", "?", "tree")
        says(stdout, {"of another run": 3, "left by a killed run": 2, "excluded": 3})
        wanted(f"tree/.mikadocherry-{run.pid}-0.tmp: of another run\n" in stderr, stderr)
        run.kill()
        run.wait()
        says(place.run("--exclude", "?", "tree")[0], {"left by a killed run": 5, "excluded": 3})


@test
def signals_that_are_ignored(place):
    """a signal that was ignored before the run stays ignored"""
    source = place.pair(20)[0]
    place.write("a", source)
    before = signal.signal(signal.SIGHUP, signal.SIG_IGN)
    try:
        with waiting_runs(place) as (run, folder):
            run.send_signal(signal.SIGHUP)
            time.sleep(0.3)
            wanted(go_on(run, folder)[0] == 0, "the run has ended by it")
    finally:
        signal.signal(signal.SIGHUP, before)
    place.has({b"a": source[:-1]})


def many_files(place):
    """Names in six folders with what they have before and after; some are names of one file."""
    pairs = [place.pair(20 + number) for number in range(8)]
    names = {}
    shutil.rmtree(place.path("tree"))
    for number in range(36):
        source = pairs[number % len(pairs)]
        name = b"%d/%d" % (number % 6, number)
        path = place.write(name, source[0])
        names[name] = source
        for other in range(number % 3):
            link = b"%d/%d.%d" % (other, number, other)
            os.makedirs(os.path.dirname(place.in_tree(link)), exist_ok=True)
            os.link(path, place.in_tree(link))
            names[link] = source
    return names


def check_whole(place, names, exact):
    """Fails where a name has neither its old nor its new contents, or where there is another file, be it a temporary
    one where that is asked for. Answers how many names have the new contents, and how many files are temporary."""
    found = place.files()
    left = [name for name in found if temporary(os.path.basename(name))]
    wanted(found.keys() - set(left) == names.keys(), "a name is missing or made")
    wanted(not (exact and left), f"{left} are left")
    for name, pair in names.items():
        wanted(found[name] in pair, f"{name} has {len(found[name])} bytes, neither {len(pair[0])} nor {len(pair[1])}")
    return sum(found[name] == pair[1] for name, pair in names.items()), len(left)


def check_links(place, names):
    """Fails where names of one file no longer are that."""
    groups = collections.defaultdict(set)
    for name in names:
        groups[name.split(b"/")[1].split(b".")[0]].add(os.stat(place.in_tree(name)).st_ino)
    wanted(all(len(group) == 1 for group in groups.values()), "names of one file are names of two")


def check_certificates(place, names, exact):
    """Fails where something else is kept than the certificates of files that were replaced, or where one of these is
    missing and that is asked for."""
    kept = {name: body for name, body in place.kept().items() if not temporary(os.path.basename(name))}
    found = place.files()
    done = {number_of(name) for name in names if found[name] == names[name][1]}
    for name, body in kept.items():
        wanted(number_of(name) in done, f"{name} is kept of a file that isn't replaced")
        wanted(body == certificate_of(20 + number_of(name) % 8), f"{name} isn't whole")
    numbers = [number_of(name) for name in kept]
    wanted(len(numbers) == len(set(numbers)), "a file has two certificates")
    wanted(not exact or len(kept) == len(done), f"{len(kept)} certificates are kept of {len(done)} files")


def number_of(name):
    """The number of a file of `many_files`, by one of its names or that of its certificate."""
    return int(name.split(b"/")[1].split(b".")[0])


def killed_amid(place, number, names, count, seconds):
    """Lets a run be ended by a signal, so many seconds after so many names have other contents."""
    before, pipe = {name: os.stat(place.in_tree(name)).st_ino for name in names}, subprocess.PIPE
    command = place.command([*KEPT, "tree"])
    run = subprocess.Popen(command, cwd=place.folder, stdout=subprocess.DEVNULL, stderr=pipe)
    while run.poll() is None and sum(os.stat(place.in_tree(it)).st_ino != before[it] for it in names) < count:
        time.sleep(0.002)
    time.sleep(seconds)
    run.send_signal(number)
    stderr = run.communicate(timeout=SECONDS)[1]
    if number == signal.SIGKILL:
        wait_for(lambda: not runs_in(place.folder), "a program doesn't end")
    wanted(run.returncode in (0, -number), f"the run has ended with {run.returncode}: {stderr!r}")


@test
def kills_at_any_moment(place):
    """a run that SIGTERM or SIGKILL ends at any moment leaves each name with the whole old or the whole new contents"""
    rng, between = random.Random(), 0
    for number in [signal.SIGTERM, signal.SIGKILL] * 6:
        names = many_files(place)
        place.kept()
        killed_amid(place, number, names, rng.randrange(len(names) * 3 // 4), rng.uniform(0, 0.05))
        done, left = check_whole(place, names, exact=number == signal.SIGTERM)
        check_certificates(place, names, exact=number == signal.SIGTERM)
        shutil.rmtree(place.path("kept"))
        between += 0 < done < len(names)
        if number == signal.SIGTERM:
            check_links(place, names)
        elif left or done < len(names):
            wanted(counts(place.run()[0]).get("left by a killed run", 0) == left, "what is left isn't counted")
            wanted(check_whole(place, names, exact=False) == (len(names), left), "a second run doesn't do the rest")
    wanted(between, "no run was ended amid the files")


@test
def files_left_by_a_killed_run(place):
    """what a killed run has left is never shrunk, and a new run with the same number takes other names"""
    source, written = place.pair(20)
    place.write(".mikadocherry-123-0.tmp", source)
    place.write("a/.mikadocherry-9-99.tmp", source)
    place.write(".mikadocherry-x-0.tmp", source)
    files = {**place.files(), b".mikadocherry-x-0.tmp": written}
    sizes = bytes_said([(source, written)])
    says(place.run("tree", "tree/.mikadocherry-123-0.tmp")[0], {"replaced": 1, **sizes, "left by a killed run": 2})
    place.has(files)
    # the shell becomes the script, so that the files have its number
    command = 'for n in 0 1 2 3; do cp "$0" tree/.mikadocherry-$$-$n.tmp; done; exec "$@"'
    place.write("b", source)
    shell = ["sh", "-c", command, "tree/b", *place.command(())]
    subprocess.run(shell, cwd=place.folder, check=True, capture_output=True, timeout=SECONDS)
    found = place.files()
    wanted(found.pop(b"b") == written, "the file isn't replaced")
    left = [found[name] for name in found.keys() - files.keys()]
    wanted(left == [source] * 4, f"{len(left)} files are left and not 4, or one differs")


@test
def one_build(place):
    """the program is run without words once before the files, for a launcher that builds it, and never without files"""
    log = os.fsdecode(place.path("log"))
    program = place.script("logging", f"#!/bin/sh\necho $# >>{log}\n" + FRONT + CUTTING)
    place.write("plain", PLAIN)
    place.run(program=program)
    wanted(not os.path.exists(log), "the program is run where there is nothing to shrink")
    for number in range(5):
        place.write(f"{number}", place.pair(20)[0])
    place.run(program=program)
    with open(log) as file:
        lines = file.read().split()
    wanted(lines == ["0"] + ["4"] * 5, f"it is run with these numbers of words: {lines}")


@test
def what_is_said(place):
    """--quiet says nothing but faults, --verbose names each file, and progress is shown on a terminal alone"""
    source, written = place.pair(20)
    refused = place.refused(object_file(source), b"refused FileType at 16\n")
    place.write("a", written)
    place.write("o", refused)
    wanted(place.keeps("--quiet", "tree") == ("", ""), "something is said")
    wanted("-tree: missing: " in place.keeps("--quiet", "missing", status=1)[1], "a fault isn't said")
    wanted(place.keeps()[1] == "", "something is said on standard error")
    lines = sorted(place.keeps("--verbose", "tree")[1].splitlines())
    named = [f"mikadocherry-tree: tree/{it}" for it in ("a: not smaller", "o: refused FileType")]
    wanted(lines == named, f"{lines} are said")
    for words, shows in ((["tree"], True), (["--quiet", "tree"], False)):
        terminal, end = pty.openpty()
        place.keeps(*words, stderr=end)
        os.write(end, b".")
        shown = os.read(terminal, 1_000)
        wanted((b"2 of 2 files" in shown) == shows, f"{shown!r} is shown on a terminal")
        os.close(terminal)
        os.close(end)


@test
def progress_on_a_terminal(place):
    """progress says which file and how many bytes, in one line, with the end of a path that is too long for it"""
    sources = [place.pair(20)[0], place.pair(30)[0]]
    long = "/".join(["folder"] * 20) + "/name"
    place.write("a", sources[0])
    place.write(long, sources[1])
    terminal, end = pty.openpty()
    total = sum(map(len, sources))
    with waiting_runs(place, "--jobs", "1", "--dry-run", "tree", stderr=end) as (run, folder):
        shown = line_with(terminal, b" bytes)")
        wanted(shown == f"mikadocherry-tree: 0 of 2 files, 0 of {total} bytes: tree/a ({len(sources[0])} bytes)".encode(), shown)
        go_on(run, folder)
        shown = line_with(terminal, b"/name (")
        front = f"mikadocherry-tree: 1 of 2 files, {len(sources[0])} of {total} bytes: ...".encode()
        wanted(shown.startswith(front) and len(shown) < 80, shown)
    os.close(terminal)
    os.close(end)


def line_with(terminal, words):
    """The first line with these words that is shown on a terminal, each of which is written over the one before it."""
    shown = b""
    while words not in shown:
        wanted(select.select([terminal], [], [], SECONDS)[0], f"only {shown!r} is shown")
        shown += os.read(terminal, 1_000)
    return next(line for line in shown.split(b"\r\033[K") if words in line)


@test
def without_root(place):
    """under fakeroot, in which packages are built, files keep the owners that it shows, and their setuid bits"""
    if not shutil.which("fakeroot"):
        raise Skipped("there is no fakeroot")
    for name in ("a", "b"):
        place.write(name, place.pair(20)[0])
    show = "stat -c '%u %g %a %n' tree/a tree/b"
    command = f'chown 1234:2345 tree/a; chown 0:0 tree/b; chmod 4755 tree/a; {show}; "$@" >/dev/null; echo $?; {show}'
    command = ["fakeroot", "sh", "-c", command, "sh", *place.command(())]
    run = subprocess.run(command, cwd=place.folder, capture_output=True, timeout=SECONDS)
    lines = run.stdout.decode().splitlines()
    wanted(lines == ["1234 2345 4755 tree/a", "0 0 644 tree/b", "0", *lines[:2]], f"{run}")
    wanted(place.read("a") == place.pair(20)[1], "a file isn't replaced")


def main():
    parser = argparse.ArgumentParser(description=__doc__, formatter_class=argparse.RawDescriptionHelpFormatter)
    parser.add_argument("--program", default=BUILT)
    parser.add_argument("--stand-in", action="store_true", help="use a script that knows the answers")
    parser.add_argument("tests", nargs="*", help="names of tests; left out, all")
    words = parser.parse_args()
    program = None if words.stand_in else executable(words.program)
    # who runs this in the background may have told it to ignore them
    signal.signal(signal.SIGINT, signal.default_int_handler)
    signal.signal(signal.SIGTERM, signal.SIG_DFL)
    signal.signal(signal.SIGHUP, signal.SIG_DFL)
    return test.run(lambda folder: Place(program, folder), words.tests)


if __name__ == "__main__":
    sys.exit(main())
