#!/usr/bin/env python3
"""Tries the must-fail edits that the gate leaves out: wrong bodies that the prover must refuse, like those of
crates/NAME/must-fail, at a clause that one of those turns too, or at the clause of a function that isn't public.

    bench/edits.py NAME ..              those of these crates
    bench/edits.py --changed [COMMIT]   those of the crates that differ from the commit, else from HEAD, and of those
                                        above them
    bench/edits.py --all                all of them: an hour and more of one processor

They stand in bench/edits/NAME, and nothing says of which clause each is. It is `rt must-fail` itself, over the files
here: it begins with what `rt check` kept, proves the crates below where nothing did, and doesn't try again what it has
tried on this machine since anything changed. It ends with 1 where an edit isn't refused, or can't be applied.
"""
import os
import pathlib
import subprocess
import sys

sys.dont_write_bytecode = True
TOP = pathlib.Path(__file__).resolve().parent.parent
EDITS = TOP / "bench" / "edits"
sys.path.insert(0, str(TOP / "tools"))
import kit


def edits_of(crate):
    """In the place of the kit's function of that name: the edits of a crate, and the files that are none."""
    files = sorted((EDITS / crate.name).glob("*"))
    return [str(it) for it in files if it.suffix == ".edit"], [str(it) for it in files if it.suffix != ".edit"]


def changed(crates, commit):
    """The crates of which a file differs from the commit, in the working tree or the index, and those above them."""
    told = subprocess.run(["git", "diff", "--name-only", commit, "--", "crates", "bench/edits"], cwd=TOP, text=True,
                          capture_output=True)
    new = subprocess.run(["git", "ls-files", "--others", "--exclude-standard", "crates", "bench/edits"], cwd=TOP,
                         text=True, capture_output=True)
    if told.returncode:
        sys.exit(f"edits.py: {told.stderr.strip().splitlines()[0]}")
    files = (told.stdout + new.stdout).splitlines()
    touched = {path.removeprefix("bench/edits/").removeprefix("crates/").partition("/")[0] for path in files}
    return {it.name for it in crates if it.name in touched or any(below.name in touched for below in it.below())}


def main(words):
    rt = kit.load()
    if rt is None:
        sys.exit(f"edits.py: {kit.MISSING}")
    os.chdir(TOP)
    crates = [it for it in rt.rtlib.crates_below(kit.TOP) if (EDITS / it.name).is_dir()]
    names = {it.name for it in crates}
    if words[:1] == ["--changed"] and len(words) < 3:
        wanted = changed(crates, *(words[1:] or ["HEAD"]))
    elif words == ["--all"]:
        wanted = names
    elif words and not words[0].startswith("-"):
        wanted = set(words)
    else:
        sys.exit(__doc__)
    if wanted - names:
        sys.exit(f"edits.py: bench/edits has no folder {min(wanted - names)}")
    if not wanted:
        print("no crate with edits here has changed")
        return 0
    rt.edits_of = edits_of
    return rt.main(["must-fail", *sorted(wanted)])


if __name__ == "__main__":
    sys.exit(main(sys.argv[1:]))
