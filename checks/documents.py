#!/usr/bin/env python3
"""Compares what the documents tell with what stands in the repository.

  checks/documents.py        prints each place that is amiss; the exit status is 1 where there is one

- Each path of the repository that stands in backquotes or is linked to is there, and so is each heading that is linked to. A path
  may begin at the repository's top, with the name of a crate (NAME/specs/..), or in a row of a crate with specs or src.
- Each crate of crates.txt has its row in docs/MAP.md and docs/CRATES.md, and no other has; the groups of docs/MAP.md are those of
  crates.txt, and its picture has each crate. Each script of bench/ has its row in bench/README.md.
- The counts that documents tell (clauses of `run_in`, crates, must-fail edits, rows of what isn't tidy) are what is there, and
  docs/PROMISES.md names each clause of `run_in`.
- README.md has at most 120 lines of at most 200 characters.
"""
import glob
import os
import re
import sys

TOP = os.path.dirname(os.path.dirname(os.path.abspath(__file__)))
MOST_LINES, MOST_CHARACTERS = 120, 200
PARTS = ("specs", "src", "proofs", "must-fail")
ENDINGS = (".md", ".py", ".rt", ".antt", ".edit", ".svg")
LINK = re.compile(r"!?\[[^\]]*\]\(([^)\s]+)\)")
QUOTED = re.compile(r"`([^`]+)`")
ROW = re.compile(r"^\| ([a-z]+(?:_[a-z]+)*) \|")
ROWS_OF_TIDY = r"\b(?:none of(?: the)?|without a record is|one of the) (\d+) (?:rows|things)\b"


def read(path):
    with open(os.path.join(TOP, path), encoding="utf-8") as handle:
        return handle.read()


def is_there(path):
    return os.path.exists(os.path.join(TOP, path))


def documents():
    """The pages that are looked at, by their paths from the top."""
    pages = glob.glob("*.md", root_dir=TOP) + glob.glob("docs/*.md", root_dir=TOP) + glob.glob("bench/*.md", root_dir=TOP)
    return sorted(pages)


def groups_of_crates():
    """The crates of crates.txt by the titles of their groups, in their order."""
    groups, title = {}, ""
    for line in read("crates.txt").splitlines():
        if line.startswith("# "):
            title = line[2:].strip()
        elif ":" in line and not line.startswith("#"):
            groups.setdefault(title, []).append(line.split(":")[0].split()[0])
    return groups


def slug(heading):
    """What a link names a heading by."""
    plain = re.sub(r"\[([^\]]*)\]\([^)]*\)", r"\1", heading).replace("`", "").strip().lower()
    return re.sub(r"[^\w\- ]", "", plain).replace(" ", "-")


def headings(path):
    return {slug(line.lstrip("#")) for line in read(path).splitlines() if line.startswith("#")}


class Paths:
    """Looks paths up that stand in documents."""

    def __init__(self, crates):
        self.crates = crates
        kept = [folder for folder in os.listdir(TOP) if folder != ".git"]
        self.tops = set(kept)
        self.names = set()
        for folder, folders, files in os.walk(TOP):
            folders[:] = [name for name in folders if name not in (".git", "out")]
            self.names.update(files)

    def link_fault(self, page, target):
        """What is amiss with a link, or None."""
        if re.match(r"[a-z]+:", target):
            return None
        path, _, heading = target.partition("#")
        whole = os.path.normpath(os.path.join(os.path.dirname(page), path)) if path else page
        if not is_there(whole):
            return f"{target} isn't there"
        if heading and whole.endswith(".md") and heading not in headings(whole):
            return f"{whole} has no heading {heading}"
        return None

    def is_path_there(self, word, crate):
        """Whether a word in backquotes is no path of the repository, or one that is there. `crate` is that of the row."""
        first, _, rest = word.partition("/")
        if not rest:
            bare = word.endswith(ENDINGS) and not word.startswith(".")
            return not bare or word in self.names
        if first in PARTS:
            owners = [crate] if crate else self.crates
            return any(glob.glob(os.path.join(TOP, "crates", owner, word)) for owner in owners)
        second = rest.split("/")[0]
        if first in self.crates or (second in PARTS and re.fullmatch("[a-z_]+", first)):
            return bool(glob.glob(os.path.join(TOP, "crates", word)))
        return first not in self.tops or bool(glob.glob(os.path.join(TOP, word)))

    def faults(self, page):
        """The lines of a page with what is amiss in them, fenced and indented texts left out."""
        fenced = False
        for number, line in enumerate(read(page).splitlines(), 1):
            fenced ^= line.startswith("```")
            if fenced or line.startswith("    "):
                continue
            for target in LINK.findall(line):
                fault = self.link_fault(page, target)
                if fault:
                    yield number, fault
            row = ROW.match(line)
            crate = row.group(1) if row and row.group(1) in self.crates else None
            for quoted in QUOTED.findall(line):
                word = quoted.split()[0].rstrip(".,;").removeprefix("./") if quoted.split() else ""
                skipped = not re.fullmatch(r"[\w.*/\-]+", word) or word.startswith("/") or "NAME" in word or "/out/" in word or ".." in word
                if not skipped and not self.is_path_there(word.rstrip("/"), crate):
                    yield number, f"{quoted} isn't there"


def crate_rows(page):
    """The rows of the tables of crates in a page: of each the crate and the heading above it."""
    title, in_table = "", False
    for line in read(page).splitlines():
        if line.startswith("#"):
            title = line.lstrip("# ")
        in_table = line.startswith("|") and (in_table or line.startswith("| crate |"))
        row = ROW.match(line)
        if in_table and row and row.group(1) != "crate":
            yield row.group(1), title


def row_faults(page, crates):
    """Which crates have no row in a page or several, and which rows are those of no crate."""
    rows = [crate for crate, _ in crate_rows(page)]
    for crate in crates:
        if rows.count(crate) != 1:
            yield f"crate {crate} has {rows.count(crate)} rows"
    for row in rows:
        if row not in crates:
            yield f"the row {row} is that of no crate"


def group_faults(page, groups):
    """Which crates stand under another heading than their group's title."""
    found = dict(crate_rows(page))
    for title, crates in groups.items():
        for crate in crates:
            if found.get(crate, "").lower() != title.lower():
                yield f"crate {crate} doesn't stand under the title {title!r} of crates.txt"


def picture_faults(page, crates):
    """Which crates don't stand in the picture of a page."""
    picture = set(re.findall(r"[a-z_]+", "".join(re.findall(r"^```$(.*?)^```$", read(page), re.M | re.S))))
    for crate in crates:
        if crate not in picture:
            yield f"crate {crate} isn't in the picture"


def clauses_of_run():
    """The names of the clauses that the contract of `run_in` has."""
    for path in glob.glob(os.path.join(TOP, "crates/*/src/*.rt")):
        with open(path, encoding="utf-8") as handle:
            found = re.search(r"^pub fn run_in<.*?^\{$", handle.read(), re.M | re.S)
        if found:
            return re.findall(r"^\s*ensures (\w+) \{", found.group(), re.M)
    return []


def promise_faults(page, clauses):
    """Which clauses no row of a page names."""
    named = set(re.findall(r"`(\w+)`", "".join(line.rpartition(" | ")[2] for line in read(page).splitlines())))
    for clause in clauses:
        if clause not in named:
            yield f"no row names the clause {clause}"


def rows_of_tidy():
    """How many rows there are of what may be untidy."""
    found = re.search(r"^pub data Row .*?\n((?:  \S.*\n)+)", read("crates/tidy_files/specs/Tidy.antt"), re.M)
    return found.group(1).count("\n") if found else 0


def count_faults(page, counts):
    """The lines of a page that tell another count than there is."""
    for number, line in enumerate(read(page).splitlines(), 1):
        for pattern, there, what in counts:
            for told in re.findall(pattern, line):
                if int(told.replace(",", "")) != there:
                    yield number, f"tells {told} {what}; there are {there}"


def size_faults(page):
    lines = read(page).splitlines()
    if len(lines) > MOST_LINES:
        yield len(lines), f"has more than {MOST_LINES} lines"
    for number, line in enumerate(lines, 1):
        if len(line) > MOST_CHARACTERS:
            yield number, f"has {len(line)} characters, more than {MOST_CHARACTERS}"


def script_faults():
    """Which scripts of bench/ have no row in its page."""
    page = read("bench/README.md")
    for script in sorted(glob.glob("*.py", root_dir=os.path.join(TOP, "bench"))):
        if f"`{script}`" not in page:
            yield f"{script} has no row"


def all_faults():
    groups = groups_of_crates()
    crates = [crate for group in groups.values() for crate in group]
    clauses = clauses_of_run()
    counts = [
        (r"\b(\d[\d,]*) clauses\b", len(clauses), "clauses of run_in"),
        (r"\b(\d[\d,]*) crates\b", len(crates), "crates"),
        (r"\b(\d[\d,]*) (?:must-fail )?edits\b", len(glob.glob(os.path.join(TOP, "crates/*/must-fail/*.edit"))), "must-fail edits"),
        (ROWS_OF_TIDY, rows_of_tidy(), "rows of what isn't tidy"),
    ]
    paths = Paths(crates)
    for page in documents():
        for number, fault in [*paths.faults(page), *count_faults(page, counts)]:
            yield f"{page}:{number}: {fault}"
    for page in ("docs/MAP.md", "docs/CRATES.md"):
        for fault in row_faults(page, crates):
            yield f"{page}: {fault}"
    for fault in [*group_faults("docs/MAP.md", groups), *picture_faults("docs/MAP.md", crates)]:
        yield f"docs/MAP.md: {fault}"
    for fault in promise_faults("docs/PROMISES.md", clauses):
        yield f"docs/PROMISES.md: {fault}"
    for number, fault in size_faults("README.md"):
        yield f"README.md:{number}: {fault}"
    for fault in script_faults():
        yield f"bench/README.md: {fault}"


def main():
    faults = list(all_faults())
    for fault in faults:
        print(fault)
    print(f"{len(faults)} places amiss in the documents" if faults else "the documents tell what stands")
    return 1 if faults else 0


if __name__ == "__main__":
    sys.exit(main())
