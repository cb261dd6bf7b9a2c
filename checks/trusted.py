#!/usr/bin/env python3
"""Lists what a person has to read who doubts the clauses of `run_in`, which `run` has for all members of classes and `run_packaged` for packages: every definition on which they
rest.

  checks/trusted.py            writes docs/TRUSTED.md anew
  checks/trusted.py --check    compares the page with what would be written; the exit status is 1 where they differ

It reads the contracts and the definitions as text. A name in a clause is followed by the `use` lines of its file to where
it stands, and on from there through all crates, down to the kit's.

The page goes by promise: PROMISES says which clauses carry each, and FAULTS which subject a fault belongs to. Both may lag behind: what
they don't name is told by itself.
"""
import argparse
import collections
import dataclasses
import difflib
import os
import re
import sys

TOP = os.path.dirname(os.path.dirname(os.path.abspath(__file__)))
CRATE, MODULE, CALL = "commands", "running", "run_in"
PAGE = "docs/TRUSTED.md"

PUNCTUATION = set("()[]{},;.")
TOKEN = re.compile(r'"(?:[^"\\]|\\.)*"|\[\]|[()\[\]{},;.]|[^\s()\[\]{},;."]+')
CLAUSE = re.compile(r"^\s*(?:pub )?(?:requires|ensures|ghost)\b(?! use)([^{\n]*)\{", re.M)
ITEM = re.compile(r"^(?:pub(?:\([a-z]+\))? )?(fn|struct|enum|trait|type|const) ([A-Za-z_]\w*)")
DECLARATION = re.compile(r"^(?:pub |abbrev |unfoldable |pattern )*(?:(data|record) )?(\S+)")


@dataclasses.dataclass(eq=False)
class Definition:
    """A definition of specs/, or an item of src/ that clauses see."""

    file: str
    line: int
    kind: str
    name: str
    comment: list
    code: list
    inner: list = dataclasses.field(default_factory=list)

    def size(self):
        return len(self.comment) + len(self.code)


def read(path):
    with open(os.path.join(TOP, path), encoding="utf-8") as handle:
        return handle.read()


def uses_of(text, keyword):
    """What each name means that the `use` lines of a text bring in: a module and a name there. The name of a module ends
    with a point, as what is named through it begins, and has None in place of a name."""
    bound = {}
    for line in re.findall(rf"^\s*(?:pub )?{keyword} ([^;\n]+);?$", text, re.M):
        path, brace, names = line.strip().partition(".{")
        for leaf in names.rstrip("}").split(", ") if brace else [""]:
            name, _, other = (leaf if brace else path).partition(" as ")
            if brace:
                bound[other or name] = (path, name)
            else:
                bound[(other or name.rsplit(".", 1)[-1]) + "."] = (name, None)
    return bound


def tokens_of(text):
    """The names that stand in a text, without strings and the names that records give to their fields. What stands before a
    point may be a module's name, and is given once more with what follows the point."""
    found = list(TOKEN.finditer(text))
    for number, match in enumerate(found):
        word, start, end = match.group(), match.start(), match.end()
        if word[0] == '"' or word in PUNCTUATION:
            continue
        if text[start - 1 : start] == "." and text[start - 2 : start - 1].strip():
            continue
        names_field = number and found[number - 1].group() in "{;" and text[end : end + 3] == " = "
        if names_field:
            continue
        yield word
        if number + 2 < len(found) and re.match(r"\.[^\s(]", text[end:]):
            yield f"{word}.{found[number + 2].group()}"


def cited(text, known):
    """The names of `known` that a text cites. An operator is known by its pieces, and a module by its point. A name that the
    text binds itself counts too: rather a definition too many than one too few."""
    words = set(tokens_of(text))
    for name in known:
        pieces = [piece for piece in name.split("◌") if piece]
        if name.endswith("."):
            yield from (word for word in words if word.startswith(name))
        elif pieces and words.issuperset(pieces):
            yield name


def meaning_of(name, uses):
    """The module in which a cited name stands, and the name there."""
    module, dot, member = name.partition(".")
    return (uses[module + dot][0], member) if dot else uses[name]


class SpecFile:
    """A file of definitions."""

    def __init__(self, path):
        self.path = path
        text = read(path)
        self.uses = uses_of(text, "use")
        self.head, self.definitions = parse_definitions(path, text)
        self.own = {}
        for definition in self.definitions:
            self.own[definition.name] = definition
            for name in definition.inner:
                self.own.setdefault(name, definition)

    def citations(self, definition):
        """The names of the file, and of its `use` lines, that a definition cites."""
        known = [name for name in [*self.own, *self.uses] if name != definition.name]
        return cited("\n".join(definition.code), known)


def parse_definitions(path, text):
    """The head of a file of definitions, its first comment and its `use` lines, and then its definitions."""
    lines = text.split("\n")
    starts = [n for n, line in enumerate(lines) if re.match(r"(pub )?(use|mod) ", line)]
    body = starts[-1] + 1 if starts else 0
    definitions, comment, current = [], [], None
    for number in range(body, len(lines)):
        line = lines[number]
        if line.startswith("--"):
            comment, current = comment + [line], None
        elif not line.strip():
            if current is None:
                comment = []
            current = None
        elif current is not None and (line[0] in " })" or line.split()[0] == current.name):
            current.code.append(line)
        else:
            kind, name = DECLARATION.match(line).groups()
            current = Definition(path, number + 1, kind or "definition", name, comment, [line])
            definitions.append(current)
            comment = []
    for definition in definitions:
        if definition.kind == "data":
            definition.inner = [line.split()[0] for line in definition.code[1:] if re.match(r"  \S+ :", line)]
    return lines[:body], definitions


class CodeFile:
    """A file of code, with its items and what contracts see of them."""

    def __init__(self, path):
        self.path = path
        self.text = read(path)
        self.lines = self.text.split("\n")
        self.ghost_uses = uses_of(self.text, "ghost use")
        self.imports = imports_of(self.text)
        self.items = {}
        for number, line in enumerate(self.lines):
            match = ITEM.match(line)
            if match:
                self.items.setdefault(match.group(2), (number, match.group(1)))

    def item(self, name):
        """An item with its comment; of a function what stands before its body. Of a type with an `impl Model` clauses see a
        value in place of its fields, so that the type of this value is all that definitions know of it."""
        first, kind = self.items[name]
        start = first
        while start and re.match(r"\s*(///|//|#\[)", self.lines[start - 1]):
            start -= 1
        comment = [line for line in self.lines[start:first] if line.startswith("//")]
        last = self.last_of(first, kind)
        code = self.lines[first : last + 1]
        for number, line in enumerate(self.lines):
            if re.match(rf"impl\b.*\bModel for {name}\b", line):
                inside = self.lines[number : self.last_of(number, "impl")]
                code = [line for line in inside if line.strip().startswith("ghost Value =")]
        return Definition(self.path, first + 1, {"fn": "call"}.get(kind, kind), name, comment, code)

    def last_of(self, first, kind):
        """The last line of an item, or of a function the last one before its body."""
        for number in range(first, len(self.lines)):
            line = self.lines[number]
            if kind == "fn":
                ends = line.endswith(" {") or self.lines[number + 1].startswith("{")
            else:
                ends = line.startswith(("}", "]", ")")) or number == first and line.endswith((";", "{}"))
            if ends:
                return number
        raise SystemExit(f"{self.path}: the item at line {first + 1} has no end")


def imports_of(text):
    """The path, as a list of words, of each name that the `use` items of a code file bring in."""
    found = {}

    def spread(prefix, rest):
        rest = rest.strip()
        if rest.endswith("}") and "{" in rest:
            head, _, inside = rest.partition("{")
            for part in split_at_commas(inside[:-1]):
                spread(prefix + [word for word in head.split("::") if word.strip()], part)
        elif rest:
            path, _, other = rest.partition(" as ")
            words = prefix + [word.strip() for word in path.split("::")]
            found[other.strip() or words[-1]] = words

    for line in re.findall(r"^(?:pub(?:\([a-z]+\))? )?use ([^;]+);", text, re.M):
        spread([], line)
    return found


def split_at_commas(text):
    parts, depth = [""], 0
    for letter in text:
        depth += {"{": 1, "}": -1}.get(letter, 0)
        if letter == "," and not depth:
            parts.append("")
        else:
            parts[-1] += letter
    return parts


def clauses_of(text):
    """The names of clauses and ghost members, and the texts between their braces."""
    for match in CLAUSE.finditer(text):
        depth, place = 1, match.end()
        while depth:
            depth += {"{": 1, "}": -1}.get(text[place], 0)
            place += 1
        yield match.group(1).strip(), text[match.end() : place - 1]


def subjects_of(text):
    """What each crate of a list is about: the comment that stands above it and its neighbours."""
    found, subject = {}, ""
    for line in text.split("\n"):
        if line.startswith("#"):
            subject = line.lstrip("# ")
        elif line.strip():
            found[line.partition(":")[0].split()[0]] = subject[:1].upper() + subject[1:]
    return found


class Repository:
    """The crates, their files, and where each name leads."""

    def __init__(self):
        lines = [line.partition("#")[0].strip() for line in read("crates.txt").split("\n")]
        self.crates = [line.partition(":")[0].split()[0] for line in lines if line]
        self.subjects = subjects_of(read("crates.txt"))
        self.files = {}
        self.items = {}
        self.cited = {}

    def file(self, path):
        if path not in self.files:
            self.files[path] = (CodeFile if path.endswith(".rt") else SpecFile)(path)
        return self.files[path]

    def root(self, crate):
        paths = [f"crates/{crate}/src/{name}.rt" for name in ("lib", "main")]
        return next(path for path in paths if os.path.exists(os.path.join(TOP, path)))

    def spec(self, module, name):
        """The definition of a name in a module of specs/, or None if it is the kit's."""
        words = module.split(".")
        if words[0] != "Rattle" or words[1] not in self.crates or words[2] != "specs":
            return None
        if words[3] == "declared":
            return self.declared(words[1], words[4:], name)
        if words[3] == "contracts":
            # What an impl that the kit derives answers, as the equality of a type that stands in the definition itself.
            return None
        path = "/".join(["crates", words[1], "specs", *words[3:]]) + ".antt"
        if not os.path.exists(os.path.join(TOP, path)):
            # The name is a constructor's, and the module is its type.
            return self.spec(module.rpartition(".")[0], words[-1])
        if name not in self.file(path).own:
            raise SystemExit(f"{path} has no definition of {name}")
        return self.file(path).own[name]

    def declared(self, crate, words, name):
        """The item of the code that definitions see under a module of `declared`."""
        modules = [word for word in words if word[0].islower()]
        if words[len(modules)] != "TheConstants":
            name = words[len(modules)]
        return self.item(self.code(crate, modules), name)

    def code(self, crate, modules):
        """The path of the file of a module of the code."""
        return "/".join(["crates", crate, "src", *modules]) + ".rt" if modules else self.root(crate)

    def item(self, path, name):
        if (path, name) not in self.items:
            self.items[path, name] = self.file(path).item(name)
        return self.items[path, name]

    def imported(self, crate, words):
        """The item that a path of the code names, or None if it isn't one of this repository."""
        if words[0] == "crate":
            words = [crate] + words[1:]
        if words[0] not in self.crates or len(words) < 2:
            return None
        crate, modules, name = words[0], words[1:-1], words[-1]
        path = self.code(crate, modules)
        file = self.file(path)
        if name in file.items:
            return self.item(path, name)
        further = file.imports.get(name)
        if further is None:
            return None
        is_whole = further[0] in self.crates or further[0] == "crate"
        return self.imported(crate, further if is_whole else [crate] + further)

    def below(self, definition):
        """What a definition or an item cites: others, and the module and name of each word of the kit."""
        if id(definition) not in self.cited:
            self.cited[id(definition)] = list(self.cited_by(definition))
        return self.cited[id(definition)]

    def cited_by(self, definition):
        file = self.file(definition.file)
        if isinstance(file, SpecFile):
            for name in file.citations(definition):
                yield file.own[name] if name in file.own else self.meaning(name, file.uses)
            return
        for _, found in self.clauses(definition):
            yield from found
        yield from self.signature(definition)

    def clauses(self, item):
        """The clauses and ghost members of an item, each with its name and what it cites."""
        uses = self.file(item.file).ghost_uses
        for name, clause in clauses_of("\n".join(item.code)):
            yield name, [self.meaning(word, uses) for word in cited(clause, uses)]

    def signature(self, item):
        """The types and traits that an item names outside its clauses."""
        text = "\n".join(item.code)
        for _, clause in clauses_of(text):
            text = text.replace(clause, "")
        yield from self.types_in(self.file(item.file), re.sub(r"//.*|ghost .*", "", text))

    def types_in(self, file, text):
        """The types and traits of this repository that a text of the code names."""
        for name in sorted(set(re.findall(r"\b[A-Z]\w*", text))):
            if name in file.imports:
                item = self.imported(file.path.split("/")[1], file.imports[name])
                if item is not None:
                    yield item
            elif name in file.items:
                yield self.item(file.path, name)

    def meaning(self, cited_name, uses):
        module, name = meaning_of(cited_name, uses)
        return self.spec(module, name) or (module, name)

    def reached_from(self, starts):
        """All that some definitions and items rest on, themselves first, and the words of the kit."""
        found, kit, waiting = {}, set(), list(reversed(starts))
        while waiting:
            below = waiting.pop()
            if isinstance(below, tuple):
                kit.add(below)
            elif id(below) not in found:
                found[id(below)] = below
                waiting += self.below(below)
        return found, kit


@dataclasses.dataclass
class Section:
    """A section of the page: a promise, the clauses that carry it, what these rest on, and what of it is new there."""

    title: str
    says: str
    clauses: list
    begins: dict = dataclasses.field(default_factory=dict)
    reads: dict = dataclasses.field(default_factory=dict)
    new: dict = dataclasses.field(default_factory=dict)

    def link(self):
        return f"[{self.title}](#{anchor_of(self.title)})"


COMMON = "What is read of a file"
COMMON_SAYS = (
    "All promises on what is written rest on this, but for where it stands and for line programs, which need less: what the words ask for, the "
    "bytes of a file, its sections, and what these say. Each group of crates stands on those before it."
)

# The promises in the order in which they are read, each with its clauses. A clause that is in none gets a section of its own, and a name that
# `run` doesn't have is left out, so that a clause may come or go before this list is set right.
PROMISES = [
    (
        "Words and statuses",
        "Which words there are, which status comes when, which files may differ, and what the calls of a host do.",
        "known words wrong words_said wrong_reads wrong_writes read_fault read_rose write_rose say_rose kept others checked_kept "
        "checked_unwritten stat_unwritten certificate_later quiet",
    ),
    ("Places", "Where everything stands in OUT, byte for byte.", "placed"),
    ("Line programs", "When each line number program of OUT is least, and which of several least ones is written.", "least order"),
    ("The same meaning", "What a file means, and when two files mean the same.", "same"),
    ("Lists", "When a range list or location list is as short as its class allows.", "lists"),
    ("Codes", "When abbreviation codes take the fewest bytes, and which of several such are written.", "codes codes_order"),
    ("Columns", "When a column has a least form, and which of several such is written.", "columns columns_order"),
    ("Layouts", "When the slots of a unit have the least bytes.", "layouts"),
    ("Tidy", "When tables, units and lists hold nothing else, and no number with a byte too many.", "tidy"),
    (
        "The certificate",
        "When CERT shows that no part of OUT could be shorter, and which of several certificates is written.",
        "certified certified_first",
    ),
    (
        "Valid and refused",
        "Which files have a fault, of which kind and at which place, and what is said of it. A line names what is new here of one subject; the "
        "table of [FORMATS.md](FORMATS.md) that it links to tells the faults in words.",
        "refused long write_fault faulty_kept faulty_unwritten done still_valid done_output refuses",
    ),
    ("A drawn file", "What a file means that is drawn from a number.", "drawn drawn_unread drawn_unsaid"),
    (
        "Accepted and rejected",
        "When three files are accepted, and else the first reason why not.",
        "accepted accepted_least accepted_kept acceptable rejected rejects",
    ),
    (
        "Messages and completeness",
        "What is said besides, when OUT is whole whatever the status, and when the work has to be done.",
        "summed stopped output_whole complete",
    ),
]
# The promises that read a file: what is common to all of these comes before them.
READERS = ["The same meaning", "Lists", "Codes", "Columns", "Layouts", "Tidy", "The certificate"]

# The subjects of the faults, in the section on valid files: which files state them, and the heading in docs/FORMATS.md of their table.
FAULTS_IN = "Valid and refused"
FAULTS = [
    (
        "dw_base spelled fixed_width leb_codec",
        "A number doesn't end inside what holds it, or doesn't fit 64 bits; of things in a row the first fault from the left counts",
        "LEB128",
    ),
    (
        "elf_sections elf_place",
        "The header of an ELF-64 file, its tables and the names of its sections say what can't be, or a limit is passed",
        "Refusals",
    ),
    ("line_", "A line number program has a header, an opcode or a row that can't be, or leaves a sequence open", "Line programs"),
    ("form_codec", "A value of a form isn't whole", "Attribute values"),
    ("abbrev_tables", "A declaration isn't whole, or has an unknown form or the code of an earlier one", "Abbreviation tables"),
    ("entry_arena entry_read", "The header of a unit or an entry isn't whole or can't be, or the entries are no tree", "Units and entries"),
    ("companions", "A set of address ranges isn't whole, or names no unit", "Address ranges"),
    (
        "list_model range_lists loc_lists value_links/specs/ListFaults.antt",
        "A contribution, an address table, a list, a slot or a view pair isn't whole or can't be, or names what isn't there",
        "Range lists and location lists",
    ),
    ("expr_ops", "An expression isn't operations, or has a branch that leads to none of them", "Expressions"),
    ("value_links/specs/LinkFaults.antt", "A value or an operation refers to what isn't there", "What values refer to"),
    ("value_links", "A file has a fault, by passes over it, of which the first that has one decides", "The passes"),
]

# So many names at most are told of what a promise needs of another; more are told by how many each crate has.
FEW = 30

HEAD = """# What the promises rest on

Whoever doubts a promise of the programs reads the clauses of `run_in`, the one call that does their work, that carry it (`run` has them for the classes with all members, and `run_packaged` for those of packages: both sets stand in [Classes.antt](../crates/dw_base/specs/Classes.antt)), and the definitions on which they rest, and no code: that the code does what the clauses say is what the prover decides. This page names each of these definitions once, and the types and the trait of the code of which clauses and definitions speak. The clauses stand in [{file}](../crates/{file}); [PROMISES.md](PROMISES.md) says each in plain words, and [PROOFS.md](PROOFS.md) how clauses and definitions are read.

**How to read it.** Find the promise in the table. Its section tells at which definitions its clauses begin, names those that no section before it has, and tells which of the earlier ones it needs. Nearly all promises need [{common}](#{anchor}), which comes first. A line of a section is a link to a file, in brackets the sections of the standard that the head of the file cites, and the names of the definitions that are meant; what each says is told by the comment above it in the file. Within a section the lowest crate comes first. Lines are counted with their comments.

**What isn't here.** What stands in `specs/` of a crate and isn't named is said by other public calls, and what stands in its `specs/inside` is needed by inner functions and proofs alone. An error in those can't make a clause of `run_in` say less. Beside these definitions the following is trusted: the kit's prover, which decides that the contracts hold, and its compiler with LLVM and the C library; the statements of the kit's library on files and standard output, by which `main` hands the words and the real files over; and the definitions of the kit that are cited here (the last section names them).

**How it is made.** `checks/trusted.py` follows the names in the clauses from file to file and writes this page. The promises and their clauses are listed there; a clause that is in none gets a section of its own. Before the page is kept it is read again: each definition on which a clause rests has to be named in it exactly once, with its file, and no other. `checks/trusted.py --check`, which `.ci/run` calls, says whether the page still holds.
"""


def anchor_of(title):
    """The place of a heading in a page, as the readers of such pages name it."""
    return re.sub(r"[^\w\- ]", "", title.lower()).replace(" ", "-")


def counted(count, noun):
    return f"{count:,} {noun}" + ("" if count == 1 else "s")


def joined(words):
    words = list(words)
    return ", ".join(words[:-1]) + " and " + words[-1] if len(words) > 1 else "".join(words)


def size_of(definitions):
    return sum(definition.size() for definition in definitions.values())


def told(definitions):
    return f"{counted(len(definitions), 'definition')} of {counted(size_of(definitions), 'line')}"


def sections_of(repository, start):
    """The sections of the page, in their order: what most promises have in common, and then each promise."""
    cites = dict(repository.clauses(start))
    promises = [Section(title, says, [name for name in names.split() if name in cites]) for title, says, names in PROMISES]
    grouped = {name for section in promises for name in section.clauses}
    promises += [Section(f"The clause {name}", "It stands in no group yet.", [name]) for name in cites if name not in grouped]
    for number, section in enumerate(promises):
        cited_here = [cited for name in section.clauses for cited in cites[name]]
        # The host is no clause's: the call says with its signature what one is.
        host = list(repository.signature(start)) if number == 0 else []
        section.reads = repository.reached_from(cited_here + host)[0]
    readers = [section.reads for section in promises if section.title in READERS and section.clauses]
    common = {key: value for key, value in readers[0].items() if all(key in reads for reads in readers)} if readers else {}
    sections = [Section(COMMON, COMMON_SAYS, [], {}, common)] + [section for section in promises if section.clauses]
    named = set()
    for section in sections:
        section.new = {key: value for key, value in section.reads.items() if key not in named}
        named.update(section.new)
        for name in section.clauses:
            section.begins[name] = [cited.name for cited in cites[name] if id(cited) in section.new]
    return sections


class Page:
    """The page, from its sections and the words of the kit."""

    def __init__(self, repository, start):
        self.repository = repository
        self.start = start
        self.needed, self.kit = repository.reached_from([start])
        del self.needed[id(start)]
        self.sections = sections_of(repository, start)
        self.formats = set(re.findall(r"^#+ (.*)$", read("docs/FORMATS.md"), re.M))

    def text(self):
        file = self.start.file.removeprefix("crates/")
        out = [HEAD.format(file=file, common=COMMON, anchor=anchor_of(COMMON)), "## The promises", "", *self.table(), ""]
        for number, section in enumerate(self.sections):
            out += [f"## {section.title}", "", *self.opening(number), *self.body(section)]
        return "\n".join(out + ["## The kit's words", "", self.kit_words(), ""])

    def table(self):
        """What each section adds, and how much there is to read for its promise."""
        yield "| promise | clauses | new definitions | new lines | definitions to read | lines to read |"
        yield "|---|---|---:|---:|---:|---:|"
        for section in self.sections:
            clauses = ", ".join(f"`{name}`" for name in section.clauses) or "what most of them need"
            numbers = (len(section.new), size_of(section.new), len(section.reads), size_of(section.reads))
            yield f"| {section.link()} | {clauses} | " + " | ".join(f"{number:,}" for number in numbers) + " |"
        clauses = counted(sum(len(section.clauses) for section in self.sections), "clause")
        yield f"| in all | {clauses} | {len(self.needed):,} | {size_of(self.needed):,} | | |"

    def opening(self, number):
        """What a section is about, where its clauses begin, and what has to be read before what is new in it."""
        section = self.sections[number]
        yield from [section.says, ""]
        if not section.clauses:
            yield from [f"There are {told(section.new)}.", ""]
            return
        begins = [f"`{name}`" + (f" at {joined(f'`{word}`' for word in words)}" if words else "") for name, words in section.begins.items()]
        yield from [f"The clauses, and where they begin: {'; '.join(begins)}.", ""]
        needs = [{key: value for key, value in before.new.items() if key in section.reads} for before in self.sections[:number]]
        parts = [f"- {self.part_of(before, needed)}" for before, needed in zip(self.sections, needs) if needed]
        if parts:
            yield from [f"To read are {told(section.reads)}:", "", *parts, ""]
        if section.new:
            yield from [f"{'and what' if parts else 'What'} is new, {told(section.new)}:", ""]

    def part_of(self, section, needed):
        """Which definitions of an earlier section are needed: by their names or by those that aren't, or else by their crates."""
        left = {key: value for key, value in section.new.items() if key not in needed}
        if not left:
            return f"all of {section.link()}"
        if len(left) < min(len(needed), FEW):
            return f"{len(needed)} of {section.link()}, all but {joined(self.names(left))}"
        if len(needed) <= FEW:
            return f"{len(needed)} of {section.link()}: {joined(self.names(needed))}"
        crates = collections.Counter(definition.file.split("/")[1] for definition in self.in_order(needed))
        return f"{len(needed)} of {section.link()}: {joined(f'{count} of {crate}' for crate, count in crates.items())}"

    def names(self, definitions):
        return [f"`{definition.name}`" for definition in self.in_order(definitions)]

    def in_order(self, definitions):
        """Definitions from the lowest crate up, and in each those of its code last."""
        order = {crate: place for place, crate in enumerate(self.repository.crates)}
        return sorted(definitions.values(), key=lambda one: (order[one.file.split("/")[1]], "/src/" in one.file, one.file, one.line))

    def body(self, section):
        """The lines of a section: one for each file of definitions, for the code of each crate, and for each subject of faults."""
        lines = {}
        for definition in self.in_order(section.new):
            files = lines.setdefault(self.place_of(definition, section.title), {})
            files.setdefault(definition.file, []).append(definition)
        group = None
        for (_, subject, says, _), files in sorted(lines.items(), key=lambda item: item[0][0]):
            if subject != group:
                yield from [*([""] if group else []), f"### {subject}", ""]
                group = subject
            yield f"- {says}" + "; ".join(self.names_of(path, found) for path, found in files.items())
        if lines:
            yield ""

    def place_of(self, definition, title):
        """The line of a section on which a definition is named: its place, its group, what it says first, and its file if it has one."""
        inner = definition.file.removeprefix("crates/")
        crate = inner.split("/")[0]
        group = self.repository.subjects[crate] if title == COMMON else None
        fits = [(len(front), place) for place, fault in enumerate(FAULTS) for front in fault[0].split() if inner.startswith(front)]
        if title == FAULTS_IN and fits:
            place = max(fits)[1]
            return place, group, self.fault(*FAULTS[place]), None
        if "/src/" in inner:
            return len(FAULTS), group, f"The code of {crate}: ", None
        return len(FAULTS), group, "", inner

    def fault(self, _, says, heading):
        """What a line of faults says first. A heading that FORMATS.md doesn't have leaves the link to the page."""
        where = f"#{anchor_of(heading)}" if heading in self.formats else ""
        return f"{says} ([{heading}](FORMATS.md{where})): "

    def names_of(self, path, definitions):
        """A link to a file, the sections of the standard that its head cites, and the names of definitions."""
        shown = path.removeprefix("crates/").replace("/specs/", "/").replace("/src/", "/").removesuffix(".antt")
        sections = self.sections_in(path)
        names = ", ".join(f"`{definition.name}`" for definition in definitions)
        return f"[{shown}](../{path})" + (f" ({sections})" if sections else "") + f" {names}"

    def sections_in(self, path):
        file = self.repository.file(path)
        if not isinstance(file, SpecFile):
            return ""
        head = " ".join(line.lstrip("- ") for line in file.head if line.startswith("--"))
        found = re.findall(r"\bsections? (\d+(?:\.\d+)*(?:(?:,| and| to) \d+(?:\.\d+)*)*)", head)
        return "; ".join(dict.fromkeys(found))

    def kit_words(self):
        """All words of the kit that are cited, by the modules in which they stand."""
        modules = collections.defaultdict(set)
        for module, name in self.kit:
            modules[module].add(f"`{name}`")
        return "; ".join(f"{module}: " + " ".join(sorted(names)) for module, names in sorted(modules.items()))


def named_in(text):
    """The definitions that a page names, each as a file and a name: on a line of a list the names behind a link to their file."""
    for line in text.split("\n"):
        pieces = re.split(r"\]\(\.\./(crates/[^)]+)\)", line) if line.startswith("- ") else []
        for path, rest in zip(pieces[1::2], pieces[2::2]):
            for name in re.findall(r"`([^`]+)`", rest):
                yield path, name


def check_names(text, needed):
    """Ends the program where a page doesn't name each needed definition exactly once, or names another."""
    named = collections.Counter(named_in(text))
    due = collections.Counter((definition.file, definition.name) for definition in needed.values())
    for (path, name), count in (due - named).items():
        print(f"{path}: {name} is named {counted(count, 'time')} too few")
    for (path, name), count in (named - due).items():
        print(f"{path}: {name} is named {counted(count, 'time')} too many")
    if named != due:
        raise SystemExit(f"{PAGE} wouldn't name each definition once")


def page():
    repository = Repository()
    start = repository.imported(CRATE, ["crate", MODULE, CALL])
    made = Page(repository, start)
    text = made.text()
    check_names(text, made.needed)
    return text


def main():
    parser = argparse.ArgumentParser(description=__doc__.split("\n")[0])
    parser.add_argument("--check", action="store_true")
    arguments = parser.parse_args()
    new = page()
    if not arguments.check:
        with open(os.path.join(TOP, PAGE), "w", encoding="utf-8") as handle:
            handle.write(new)
        return 0
    old = read(PAGE) if os.path.exists(os.path.join(TOP, PAGE)) else ""
    for line in difflib.unified_diff(old.split("\n"), new.split("\n"), PAGE, "as it would be written", lineterm="", n=0):
        print(line)
    print(f"{PAGE}: " + ("as it would be written" if old == new else "differs; checks/trusted.py writes it anew"))
    return 0 if old == new else 1


if __name__ == "__main__":
    sys.exit(main())
