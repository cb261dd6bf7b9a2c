"""Compiles sources and runs the program on one file, for the scripts that compare what it wrote with what it read."""
import argparse
import os
import shutil
import subprocess

CRATES = os.path.join(os.path.dirname(os.path.dirname(os.path.abspath(__file__))), "crates")
# the head of a table of what the tools make of files
TOOLS_HEADING = "| program | | input | `dwz` | for bytes | for packages | `dwz`, then for packages |\n|---|---|---:|---:|---:|---:|---:|"


def compiled(folder, name, text, builds):
    """The files that are made of a source by builds, each the end of a file's name and a command; none where the compiler fails."""
    source = os.path.join(folder, name)
    with open(source, "w") as file:
        file.write(text)
    made = []
    for end, command in builds:
        out = f"{source}-{end}"
        if subprocess.run([*command, "-gdwarf-5", "-w", "-o", out, source], capture_output=True).returncode == 0:
            made.append(out)
    return made


def tools_parser(description):
    """A parser of the words FILE .., with both built programs and dwz, each of which may be another."""
    parser = argparse.ArgumentParser(description=description)
    parser.add_argument("files", nargs="+")
    for name, crate in (("--program", "shrink_app"), ("--packages", "packages_app")):
        parser.add_argument(name, default=os.path.join(CRATES, crate, "out", crate))
    parser.add_argument("--dwz", default=shutil.which("dwz") or "dwz")
    return parser


def shrink(program, path, out, certificate=os.devnull):
    """'written', 'refused' or 'differs', and what was said or the status. Left out, the certificate is thrown away."""
    run = subprocess.run([program, "shrink", path, out, certificate], capture_output=True, text=True, errors="replace")
    if run.returncode == 0:
        return "written", ""
    if run.returncode == 3:
        return "refused", run.stdout.strip()
    return "differs", f"status {run.returncode}, said {run.stdout!r}"
