#!/usr/bin/env python3
"""Prints what files take before, by dwz, by the program for the fewest bytes, by the one for packages, and by the latter behind dwz: the
table of docs/MEASURES.md for packages, in Markdown.

  bench/package_sizes.py [--program PROGRAM] [--packages PROGRAM] [--dwz PROGRAM] FILE ..

Three rows for each file: the bytes of .debug_info, .debug_abbrev, .debug_line, .debug_rnglists and .debug_loclists; all debug sections,
each compressed by zlib, as dh_strip does it: the debug file that objcopy --only-keep-debug --compress-debug-sections=zlib makes; and
the debug file uncompressed, by xz -6, as in a package of uncompressed debug files. A cell is followed by its part of the input's.
"""
import os
import subprocess
import tempfile
from typing import List

from compare_dwz import SECTIONS, sizes_of
from shrinking import TOOLS_HEADING, shrink, tools_parser

ROWS = ("five sections", "all by zlib", "all by xz")


def measured(path: str, folder: str) -> List[int]:
    """The bytes of the three rows."""
    debug, packed = (os.path.join(folder, name) for name in ("debug", "packed"))
    subprocess.run(["objcopy", "--only-keep-debug", path, debug], check=True)
    subprocess.run(["objcopy", "--only-keep-debug", "--compress-debug-sections=zlib", path, packed], check=True)
    pressed = subprocess.run(["xz", "-6", "-k", "-c", debug], check=True, stdout=subprocess.PIPE).stdout
    sizes = sizes_of(path)
    return [sum(sizes[name] for name in SECTIONS), os.path.getsize(packed), len(pressed)]


def lines(path: str, program: str, packages: str, dwz: str) -> List[str]:
    with tempfile.TemporaryDirectory() as folder:
        by_dwz, fewest, packed, behind = (os.path.join(folder, name) for name in ("dwz", "fewest", "for_packages", "behind"))
        ran = subprocess.run([dwz, "-o", by_dwz, path], stdout=subprocess.PIPE, stderr=subprocess.STDOUT, text=True, errors="replace")
        said = ran.stdout.strip().split("\n")[0].split(": ")[-1][:60]
        told = {fewest: shrink(program, path, fewest), packed: shrink(packages, path, packed)}
        if os.path.exists(by_dwz):
            told[behind] = shrink(packages, by_dwz, behind)
        columns = [measured(path, folder)]
        for made in (by_dwz, fewest, packed, behind):
            columns.append(measured(made, folder) if os.path.exists(made) else [])
    wrong = {fewest: "", packed: "", behind: ""} | {made: " ".join(answer) for made, answer in told.items() if answer[0] != "written"}
    reasons = ["", said, wrong[fewest], wrong[packed], wrong[behind]]
    name, out = os.path.basename(path), []
    for number, row in enumerate(ROWS):
        cells = [f"{column[number]:,}" + (f" ({100 * column[number] / columns[0][number]:.1f} %)" if column is not columns[0] else "") if column
                 else (reason if number == 0 else "") for column, reason in zip(columns, reasons)]
        out.append(f"| {name if number == 0 else ''} | {row} | " + " | ".join(cells) + " |")
    return out


def main() -> None:
    options = tools_parser(__doc__.split("\n")[0]).parse_args()
    print(TOOLS_HEADING)
    for path in options.files:
        print("\n".join(lines(path, options.program, options.packages, options.dwz)), flush=True)


if __name__ == "__main__":
    main()
