#!/usr/bin/env python3
"""Runs the program, dwz and llvm-dwarfutil on files, and prints what each takes and what each makes of the debug sections, as a table
in Markdown.

  bench/compare_dwz.py [--program PROGRAM] [--dwarfutil PROGRAM] [--runs N] [--svg PICTURE] FILE ..

Of N runs (1) the fastest counts. Time is that of the processor, in seconds; memory is the peak, in MB of 10^6 bytes; sizes are bytes.
The program makes its certificate in that time, which is thrown away; bench/certificates.py tells its size.
Both are told by GNU time, since what Python asks of a process counts the memory of Python itself. dwz doesn't take every file: then its
columns say what it said. The last lines add up the files that both take, and all files. PICTURE is an SVG with bars for the former.

llvm-dwarfutil has columns where it is installed. In Debian 12 the packages llvm-15, llvm-16 and llvm-19 have it; the first two leave out
all debug information of a file that has range lists of DWARF 5, and succeed. That of 19 makes another file than the other tools do: it
leaves out entries and rows that it takes for unused, types that were said before, and the view numbers of locations, and moves strings
and addresses to sections that aren't counted here; the last column says by how much these have grown.
"""
import argparse
import math
import os
import re
import shutil
import subprocess
import sys
import tempfile
from collections import Counter
from dataclasses import dataclass, field
from typing import Dict, Iterable, List, Optional, Sequence

TOP = os.path.dirname(os.path.dirname(os.path.abspath(__file__)))
SECTIONS = (".debug_info", ".debug_abbrev", ".debug_line", ".debug_rnglists", ".debug_loclists")
GROUPS = (*((name, (name,)) for name in SECTIONS), ("all five", SECTIONS))
HEADER = re.compile(r"\]\s+(\.debug_\w+)\s+\S+\s+\S+\s+\S+\s+([0-9a-f]+)")
DWARFUTILS = ("llvm-dwarfutil", *(f"llvm-dwarfutil-{version}" for version in range(40, 14, -1)))
TOOLS = ("before", "ours", "dwz", "llvm-dwarfutil")
BARS = (("before", "#8c959f"), ("by this program", "#2f81f7"), ("by dwz", "#d4892c"))
# The picture has a ground of its own, so that it can be read on a light and on a dark page.
STYLE = """text { font: 13px sans-serif; fill: #1f2328 } .ground { fill: #ffffff } line { stroke: #d1d9e0 }
@media (prefers-color-scheme: dark) { text { fill: #f0f6fc } .ground { fill: #0d1117 } line { stroke: #3d444d } }"""
LEFT, WIDTH, TOP_MARGIN, BAR, GROUP = 130, 560, 84, 17, 68


@dataclass
class Run:
    """What a tool took and made, or why it made nothing. That of no tool has the sizes before."""
    seconds: float = 0.0
    megabytes: float = 0.0
    sizes: Dict[str, int] = field(default_factory=dict)
    refused: str = ""


def sizes_of(path: str) -> Dict[str, int]:
    """The bytes of each debug section, none of one that isn't there."""
    headers = subprocess.run(["readelf", "-SW", path], stdout=subprocess.PIPE, text=True).stdout
    return Counter({name: int(size, 16) for name, size in HEADER.findall(headers)})


def added(runs: Iterable[Run], names: Iterable[str] = SECTIONS) -> int:
    return sum(run.sizes[name] for run in runs for name in names)


def measured(command: List[str], out: str, runs: int) -> Run:
    """The fastest of some runs of a command that writes a file."""
    best: Optional[Run] = None
    for _ in range(runs):
        if os.path.exists(out):
            os.remove(out)
        taken = out + ".time"
        run = subprocess.run(["/usr/bin/time", "-f", "%U %S %M", "-o", taken, *command], stdout=subprocess.PIPE,
                             stderr=subprocess.STDOUT, text=True, errors="replace")
        if run.returncode != 0 or not os.path.exists(out):
            return Run(refused=run.stdout.strip().split("\n")[0].split(": ")[-1][:60] or f"status {run.returncode}")
        with open(taken) as file:
            user, system, kilobytes = file.read().split()
        made = Run(float(user) + float(system), int(kilobytes) * 1024 / 1e6, sizes_of(out))
        if best is None or made.seconds < best.seconds:
            best = made
    return best


def by_dwarfutil(dwarfutil: str, path: str, out: str, runs: int) -> Run:
    """A run that leaves out all entries has failed, whatever its status."""
    run = measured([dwarfutil, path, out], out, runs)
    return run if run.refused or run.sizes[".debug_info"] else Run(refused="leaves out .debug_info")


def cells(run: Run) -> List[str]:
    if run.refused:
        return [run.refused, "", ""]
    return [f"{added([run]):,}", f"{run.seconds:.2f}", f"{run.megabytes:.0f}"]


def row(name: str, before: Run, ours: Run, theirs: Run, dwarfutil: Optional[Run] = None) -> str:
    known = not ours.refused and before.sizes[".debug_info"]
    columns = [name, f"{added([before]):,}", *cells(ours), *cells(theirs),
               f"{ours.megabytes * 1e6 / before.sizes['.debug_info']:.1f}" if known else ""]
    if dwarfutil:
        others = [sum(run.sizes.values()) - added([run]) for run in (before, dwarfutil) if not run.refused]
        columns += [*cells(dwarfutil), f"{others[1] - others[0]:+,}" if others[1:] else ""]
    return "| " + " | ".join(columns) + " |"


def total(label: str, results: Sequence[Sequence[Run]]) -> str:
    """The sections of all files before and by each tool that takes them all."""
    columns = [(tool, runs) for tool, runs in zip(TOOLS, zip(*results)) if not any(run.refused for run in runs)]
    parts = []
    for group, names in GROUPS:
        (_, before), (_, ours), *others = ((tool, added(runs, names)) for tool, runs in columns)
        parts.append(f"{group} {before:,} -> {ours:,}" + "".join(f" ({tool} {theirs:,})" for tool, theirs in others))
    return f"{label}: {len(results)} files; " + "; ".join(parts)


def text(x: float, y: float, words: str, anchor: str = "start") -> str:
    return f'<text x="{x:.1f}" y="{y:.1f}" text-anchor="{anchor}">{words}</text>'


def bars(top: float, group: str, sizes: List[int], scale: float) -> List[str]:
    """The bars of some sections, one below the other, with their bytes and their part of those before."""
    parts = [text(LEFT - 10, top + 1.5 * BAR + 5, group, "end")]
    for (_, colour), size, y in zip(BARS, sizes, (top, top + BAR, top + 2 * BAR)):
        share = f", {100 * size / sizes[0]:.1f} %" if y > top and sizes[0] else ""
        parts.append(f'<rect x="{LEFT}" y="{y}" width="{size * scale:.1f}" height="{BAR - 2}" fill="{colour}"/>')
        parts.append(text(LEFT + size * scale + 6, y + 12, f"{size / 1e6:.2f} MB{share}"))
    return parts


def axis(bottom: float, most: int, scale: float) -> List[str]:
    """Lines at the multiples of the least 1, 2 or 5 of a power of ten of which at most six fit, in MB."""
    power = 10 ** math.floor(math.log10(most / 6e6))
    step = next(power * digit for digit in (1, 2, 5, 10) if most <= 6e6 * power * digit)
    parts = [text(LEFT + WIDTH / 2, bottom + 40, "MB of 10^6 bytes", "middle")]
    for number in range(int(most / 1e6 / step) + 1):
        x = LEFT + number * step * 1e6 * scale
        parts.append(f'<line x1="{x:.1f}" y1="{TOP_MARGIN - 8}" x2="{x:.1f}" y2="{bottom}"/>')
        parts.append(text(x, bottom + 18, f"{number * step:g}", "middle"))
    return parts


def picture(results: Sequence[Sequence[Run]]) -> str:
    """The bytes of each section before, by ours and by dwz, of all files together."""
    groups = [(group, [added(runs, names) for _, runs in zip(BARS, zip(*results))]) for group, names in GROUPS]
    most = max(max(sizes) for _, sizes in groups)
    scale, bottom = WIDTH / most, TOP_MARGIN + GROUP * len(groups)
    title, size = f"Bytes of the debug sections of {len(results)} programs", (LEFT + WIDTH + 150, bottom + 56)
    parts = ['<svg xmlns="http://www.w3.org/2000/svg" role="img" width="%d" height="%d" viewBox="0 0 %d %d">' % (*size, *size),
             f"<title>{title}</title>", f"<style>{STYLE}</style>", '<rect class="ground" width="100%" height="100%"/>',
             text(LEFT, 26, title), *axis(bottom, most, scale)]
    for (words, colour), x in zip(BARS, (LEFT, LEFT + 85, LEFT + 225)):
        parts += [f'<rect x="{x}" y="43" width="{BAR - 4}" height="{BAR - 4}" fill="{colour}"/>', text(x + BAR, 54, words)]
    for place, (group, sizes) in enumerate(groups):
        parts += bars(TOP_MARGIN + GROUP * place, group, sizes, scale)
    return "\n".join([*parts, "</svg>"]) + "\n"


def main():
    parser = argparse.ArgumentParser(description=__doc__.split("\n")[0])
    parser.add_argument("--program", default=os.path.join(TOP, "crates/shrink_app/out/shrink_app"))
    parser.add_argument("--dwarfutil", default=next(filter(shutil.which, DWARFUTILS), None))
    parser.add_argument("--runs", type=int, default=1)
    parser.add_argument("--svg", metavar="PICTURE")
    parser.add_argument("files", nargs="+")
    options = parser.parse_args()
    group = (" llvm-dwarfutil | s | MB | other sections |", "---:|---:|---:|---:|") if options.dwarfutil else ("", "")
    print("| file | debug sections | ours | s | MB | dwz | s | MB | memory of ours over .debug_info |" + group[0])
    print("|---|---:|---:|---:|---:|---:|---:|---:|---:|" + group[1])
    results = []
    with tempfile.TemporaryDirectory() as folder:
        out = os.path.join(folder, "out")
        for path in options.files:
            result = [Run(sizes=sizes_of(path)), measured([options.program, "shrink", path, out, os.devnull], out, options.runs),
                      measured(["dwz", "-o", out, path], out, options.runs)]
            if options.dwarfutil:
                result.append(by_dwarfutil(options.dwarfutil, path, out, options.runs))
            print(row(os.path.basename(path), *result), flush=True)
            if not result[1].refused:
                results.append(result)
    both = [result for result in results if not result[2].refused]
    for label, chosen in (("both take", both), ("all that ours takes", results)):
        if chosen:
            print("\n" + total(label, chosen))
    if options.svg and both:
        with open(options.svg, "w") as file:
            file.write(picture(both))
    sys.exit(0 if len(results) == len(options.files) else 1)


if __name__ == "__main__":
    main()
