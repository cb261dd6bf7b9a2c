"""What the scripts of tests share: the list of a script's tests, how each ends, and what is said of it; and how they wait for
other processes."""
import os
import sys
import tempfile
import time

TOP = os.path.dirname(os.path.dirname(os.path.abspath(__file__)))
BUILT = os.path.join(TOP, "crates/shrink_app/out/shrink_app")
BUILT_FOR_PACKAGES = os.path.join(TOP, "crates/packages_app/out/packages_app")
# A run of what is tested has to end in this time.
SECONDS = 60


class Failure(Exception):
    """What a test found to be wrong."""


class Skipped(Exception):
    """Why a test can't be run here."""


def wanted(condition, words):
    if not condition:
        raise Failure(words)


def wait_for(condition, words):
    end = time.monotonic() + SECONDS
    while not condition():
        wanted(time.monotonic() < end, f"{words} in {SECONDS} seconds")
        time.sleep(0.01)


def is_alive(number):
    """Whether a process lives, and not only its number, for which nobody has asked yet."""
    try:
        with open(f"/proc/{number}/stat") as file:
            return file.read().rsplit(")", 1)[1].split()[0] != "Z"
    except OSError:
        return False


def executable(path):
    """The whole path of a program, which has to be there."""
    path = os.path.abspath(path)
    if not os.access(path, os.X_OK):
        sys.exit(f"{path} isn't there: ./mikadocherry builds it, and so does rt ci")
    return path


def outcome(function, make_place):
    """Whether a test passed, None where it can't be run here, and what is to be said of it."""
    with tempfile.TemporaryDirectory() as folder:
        try:
            function(make_place(folder))
        except Skipped as why:
            return None, f": {why}"
        except Exception as wrong:
            return False, f": {wrong!r}"
    return True, ""


class Tests:
    """The tests of a script in their order; as a decorator it adds one, whose first line says what it tests."""

    def __init__(self):
        self.functions = []

    def __call__(self, function):
        self.functions.append(function)
        return function

    def run(self, make_place, names=()):
        """Runs those with these names, or all, each in a place that is made of a new folder. The exit status."""
        counts = {True: 0, False: 0, None: 0}
        for function in self.functions:
            if names and function.__name__ not in names:
                continue
            start = time.monotonic()
            passed, why = outcome(function, make_place)
            counts[passed] += 1
            word = {True: "passed", False: "FAILED", None: "skipped"}[passed]
            print(f"{word}: {function.__doc__} ({time.monotonic() - start:.1f} s){why}", flush=True)
        print(f"{counts[True]} passed, {counts[False]} failed")
        return 1 if counts[False] else 0
