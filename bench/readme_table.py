#!/usr/bin/env python3
"""Prints README's table: what dwz, the program for the fewest bytes, the one for packages, and the latter behind dwz make of files, and what
each takes.

  bench/readme_table.py [--program PROGRAM] [--packages PROGRAM] [--dwz PROGRAM] [--runs N] FILE ..

Bytes are those of the five sections that these programs write, as they are and with each compressed by zlib at level 6. Seconds are of the
processor, the fastest of N runs (3), the tools in turn; memory is the peak, in MB of 10^6 bytes. Behind dwz both tools' seconds are
added, and the greater peak is told. Run it with nothing beside.
"""
import os
import subprocess
import tempfile
import zlib
from typing import List, Optional

from compare_dwz import SECTIONS, Run, added, measured, sizes_of
from shrinking import TOOLS_HEADING, tools_parser


def compressed(path: str) -> int:
    """The bytes of the five sections, each compressed by zlib."""
    found = 0
    with tempfile.TemporaryDirectory() as folder:
        for name in SECTIONS:
            body = os.path.join(folder, "body")
            subprocess.run(["objcopy", "-O", "binary", "--only-section", name, "--set-section-flags", f"{name}=alloc", path, body],
                           stderr=subprocess.DEVNULL, check=False)
            if os.path.exists(body):
                with open(body, "rb") as file:
                    found += len(zlib.compress(file.read(), 6))
                os.remove(body)
    return found


def better(one: Optional[Run], other: Run) -> Run:
    return other if one is None or other.seconds < one.seconds else one


def lines(path: str, program: str, packages: str, dwz: str, runs: int) -> List[str]:
    """The rows of a file: its bytes, and what the tools take."""
    with tempfile.TemporaryDirectory() as folder:
        by_dwz, fewest, packed, behind = (os.path.join(folder, name) for name in ("dwz", "fewest", "packed", "behind"))
        tools = [([dwz, "-o", by_dwz, path], by_dwz), ([program, "shrink", path, fewest, "/dev/null"], fewest),
                 ([packages, "shrink", path, packed, "/dev/null"], packed),
                 ([packages, "shrink", by_dwz, behind, "/dev/null"], behind)]
        best: List[Optional[Run]] = [None] * len(tools)
        for _ in range(runs):
            for number, (command, made_file) in enumerate(tools):
                if made_file != behind or os.path.exists(by_dwz):
                    best[number] = better(best[number], measured(command, made_file, 1))
        before = Run(sizes=sizes_of(path))
        made = [run or Run(refused="no input") for run in best]
        raw = [f"{added([run]):,}" if not run.refused else run.refused for run in (before, *made)]
        small = [f"{compressed(file):,}" if os.path.exists(file) else "" for file in (path, by_dwz, fewest, packed, behind)]
        both = Run(made[0].seconds + made[3].seconds, max(made[0].megabytes, made[3].megabytes))
        taken = [f"{run.seconds:.2f}; {run.megabytes:.0f}" for run in (*made[:3], both)]
    name = os.path.basename(path)
    return [f"| {name} | bytes | " + " | ".join(raw) + " |", "| | by zlib | " + " | ".join(small) + " |",
            "| | seconds; MB | | " + " | ".join(taken) + " |"]


def main() -> None:
    parser = tools_parser(__doc__.split("\n")[0])
    parser.add_argument("--runs", type=int, default=3)
    arguments = parser.parse_args()
    print(TOOLS_HEADING)
    for path in arguments.files:
        print("\n".join(lines(path, arguments.program, arguments.packages, arguments.dwz, arguments.runs)), flush=True)


if __name__ == "__main__":
    main()
