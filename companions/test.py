#!/usr/bin/env python3
"""Runs the tests of the companions: those of each module of companions/tests.

usage: companions/test.py [PROGRAM] [--only WORDS]

PROGRAM is the program's path; else the variable ALPHA says it, else it is crates/alpha_tool/out/alpha_tool. Where none
is there, the tests that need it are skipped, and a line says so. With --only the tests run whose module or name has
WORDS in it. The last line counts what passed, failed and was skipped; the status is 1 where something failed.

A test is a function of such a module whose name begins with `test_` and goes on as a sentence. It is called with a
folder of its own, which goes away, and fails by any exception. What it needs beside Python it says: `@needs_program`
stands above one that asks the program, and `Lacking` is raised where anything else isn't there. These, and what several
modules use, are in tests/helpers.py. A new module needs no entry anywhere.
"""
import argparse
import importlib
import os
import pkgutil
import sys
import tempfile
import time
import traceback
from concurrent.futures import ThreadPoolExecutor

sys.dont_write_bytecode = True
HERE = os.path.dirname(os.path.abspath(__file__))


def tests_with(words):
    """The tests of all modules, with the names that they are told by."""
    found = []
    for module in sorted(info.name for info in pkgutil.iter_modules([os.path.join(HERE, "tests")])):
        for name, function in vars(importlib.import_module(f"tests.{module}")).items():
            told = f"{module}: {name.removeprefix('test_').replace('_', ' ')}"
            if name.startswith("test_") and words in told:
                found.append((told, function))
    return found


def outcome(name, function):
    """What a test comes to, and the line that is to be said of it."""
    from tests import helpers  # it reads the variable that main sets
    if getattr(function, "needs_program", False) and not os.access(helpers.ASKED, os.X_OK):
        return "skipped", f"skipped: {name}: there is no program at {helpers.ASKED}; give its path"
    try:
        with tempfile.TemporaryDirectory() as folder:
            function(folder)
        return "passed", None
    except helpers.Lacking as lacking:
        return "skipped", f"skipped: {name}: {lacking}"
    except helpers.Failed as failed:
        return "failed", f"FAILED: {name}: {failed}"
    except Exception:  # a test that fails may fail in any way, and the others go on
        return "failed", f"FAILED: {name}: {traceback.format_exc()}"


def main():
    parser = argparse.ArgumentParser(prog="test.py", description=__doc__,
                                     formatter_class=argparse.RawDescriptionHelpFormatter)
    parser.add_argument("program", metavar="PROGRAM", nargs="?")
    parser.add_argument("--only", metavar="WORDS", default="")
    options = parser.parse_args()
    if options.program is not None:
        os.environ["ALPHA"] = os.path.abspath(options.program)
    started = time.time()
    counts = {"passed": 0, "failed": 0, "skipped": 0}
    with ThreadPoolExecutor(2) as pool:
        for kind, line in pool.map(lambda one: outcome(*one), tests_with(options.only)):
            counts[kind] += 1
            if line is not None:
                print(line, flush=True)
    print(f"{counts['passed']} passed, {counts['failed']} failed, {counts['skipped']} skipped in "
          f"{time.time() - started:.0f} s")
    return 1 if counts["failed"] else 0


if __name__ == "__main__":
    sys.exit(main())
