"""The kit's command `rt` as a module: its crates, its stamps and its lanes, by which scripts here prove crates side by
side, make the program and measure the gate."""
import functools
import importlib.machinery
import importlib.util
import os
import pathlib
import shutil

TOP = os.path.dirname(os.path.dirname(os.path.realpath(__file__)))
# The status of ./alpha and ./look where there is no program, which no command has.
NO_PROGRAM = 70
MISSING = "the Rattle kit is missing: its command rt isn't on the path"


def load():
    """The module, or None where there is no kit on the path."""
    command = os.path.realpath(shutil.which("rt") or "")
    if not os.path.isfile(os.path.join(os.path.dirname(command), "rtlib.py")):
        return None
    loader = importlib.machinery.SourceFileLoader("rt", command)
    rt = importlib.util.module_from_spec(importlib.util.spec_from_loader("rt", loader))
    loader.exec_module(rt)
    # Its crates can be linked, and are held to the file HANDLES.
    rt.rtlib.Crate = rt.Crate
    rt.Crate.allowed = rt.handles_of(TOP)
    return rt


def tool(rt):
    """The crate of the program."""
    made = rt.Crate(f"{TOP}/crates/alpha_tool", TOP, {})
    rt.read_files(made)
    return made


def look_at(rt, tool):
    """A sum of all that the program is made from, and the crates whose kept work is that of their sources and of all
    below. Each source is read once for it."""
    stamp = rt.Crate.stamp
    rt.Crate.stamp = functools.lru_cache(maxsize=None)(stamp)
    try:
        return tool.stamp(), {it for it in tool.below() if it.is_built()}
    finally:
        rt.Crate.stamp = stamp


def has_stamp(rt, program, stamp):
    """Whether the file is the program that was made at this sum of its sources."""
    return os.access(program, os.X_OK) and rt.rtlib.text_of(f"{program}.stamp") == stamp + rt.rtlib.sum_of(program)


def put_stamp(rt, program, stamp):
    with open(f"{program}.stamp", "w", encoding="utf-8") as file:
        file.write(stamp + rt.rtlib.sum_of(program))


def lines_of(crate):
    """How many lines of code, definitions and proofs a crate has."""
    files = (file for part in ("src", "specs", "proofs") for file in pathlib.Path(crate.folder, part).rglob("*"))
    return sum(file.read_bytes().count(b"\n") for file in files if file.suffix in (".rt", ".antt"))


def longest_chain(crates, cost):
    """The row of crates, each standing on the one before it, whose costs have the greatest sum."""
    rows = {}
    for crate in crates:
        below = max((rows[it] for it in crate.below()), key=lambda row: sum(map(cost, row)), default=[])
        rows[crate] = [*below, crate]
    return max(rows.values(), key=lambda row: sum(map(cost, row)))


def slack_of(crates, cost):
    """By how much the costliest row of crates through each, each standing on the one before it, is cheaper than the
    costliest of all: as a part of that one."""
    upto, behind = {}, {it: 0 for it in crates}
    for crate in crates:
        upto[crate] = cost(crate) + max((upto[it] for it in crate.below()), default=0)
    for crate in reversed(crates):
        for it in crate.below():
            behind[it] = max(behind[it], cost(crate) + behind[crate])
    most = max(upto.values())
    return {it: 1 - (upto[it] + behind[it]) / most if most else 0 for it in crates}
