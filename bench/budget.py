#!/usr/bin/env python3
"""Runs the gate from nothing and measures it: processor minutes by crate (its proof, its tests' proof, its edits, and
building and running its program and tests), the dearest edits, and the longest chain of crates. It is `rt ci` itself,
whose calls of the prover are timed, each with all that it starts; its last line says whether it passed, and then the
tables of docs/budget.md are written anew.

    bench/budget.py                     the gate: one to three hours, by all processors
    bench/budget.py --functions NAME..  the dearest functions of these crates and their tests, each crate proved from
                                        nothing once more, at one job

The gate takes what it has proved of the same files on this machine, and so does the table: what a call took stands in
.budget.jsonl, with the sums of the crates that the run was of, and counts as long as a crate and those below it stay
the same. So a run that was cut off, or one behind a change of a few crates, still gives the whole.
"""
import collections
import json
import os
import re
import resource
import subprocess
import sys
import tempfile
import time

sys.dont_write_bytecode = True
sys.path.insert(0, os.path.join(os.path.dirname(os.path.dirname(os.path.realpath(__file__))), "tools"))
import kit

PAGE = os.path.join(kit.TOP, "docs/budget.md")
LOG = os.path.join(kit.TOP, ".budget.jsonl")
KINDS = ("proof", "tests", "edits", "programs")
COLUMNS = (("proof",), ("edits",), ("tests", "programs"))
SHOWN = 5
# Stands in the place of the prover: runs it, and writes down what it took.
TIMED = """#!{python} -IS
import json, os, resource, subprocess, sys
words = [it for it in sys.argv[1:] if not it.startswith("--edit=")]
status = subprocess.call([{rattle!r}, *words])
used = resource.getrusage(resource.RUSAGE_CHILDREN)
with open({log!r}, "a") as log:
    log.write(json.dumps([sys.argv[1:], os.getcwd(), used.ru_utime + used.ru_stime, used.ru_maxrss]) + "\\n")
if status < 0:
    os.kill(os.getpid(), -status)
sys.exit(status)
"""


def seconds_of(who):
    used = resource.getrusage(who)
    return used.ru_utime + used.ru_stime


def kind_of(words, folder):
    """Which part of the gate a call of the prover belongs to."""
    if os.path.basename(folder).startswith("rt-edit-"):
        return "edits"
    if "--crate-checked" in words:
        return "programs"
    return "tests" if "--test" in words else "proof"


class Gate:
    """The runs of the gate so far: the seconds of each crate by kind, and of each edit, and the most memory of a
    check."""

    def __init__(self, rt):
        self.rt, self.crates = rt, rt.rtlib.crates_below(kit.TOP)
        self.sums = {}
        for it in self.crates:
            rt.stamp_of(it, self.sums)
        self.seconds, self.edits, self.runs = collections.Counter(), collections.Counter(), collections.Counter()
        self.memory, self.missing = 0, []

    def run(self):
        with open(LOG, "a") as log:
            log.write(json.dumps(self.sums) + "\n")
        with tempfile.TemporaryDirectory() as folder:
            timed = f"{folder}/rattle"
            with open(timed, "w") as file:
                file.write(TIMED.format(python=sys.executable, rattle=self.rt.rtlib.RATTLE, log=LOG))
            os.chmod(timed, 0o755)
            self.rt.rtlib.RATTLE = timed
            self.time_edits()
            self.time_runs()
            status = self.rt.main(["ci"])
        used = seconds_of(resource.RUSAGE_CHILDREN) + seconds_of(resource.RUSAGE_SELF)
        with open(LOG) as log:
            self.beside = used - self.read(log) - sum(self.runs.values())
        return status

    def read(self, log):
        """Takes in what all runs took, a later one in the place of an earlier one, part by part, and returns what the
        last one did."""
        runs, sums = [], {}
        for line in map(json.loads, log):
            if isinstance(line, dict):
                sums = line
                runs.append((collections.Counter(), collections.Counter()))
                continue
            words, folder, seconds, kibibytes = line
            name = words[words.index("--crate-name") + 1] if "--crate-name" in words else None
            if name is None or sums.get(name) != self.sums.get(name):
                continue
            self.memory = max(self.memory, kibibytes)
            parts, edits = runs[-1]
            edit = next((it.removeprefix("--edit=") for it in words if it.startswith("--edit=")), None)
            if edit is None:
                parts[name, kind_of(words, folder)] += seconds
            else:
                edits[name, edit] += seconds
        for parts, edits in runs:
            self.seconds.update({it: seconds - self.seconds[it] for it, seconds in parts.items()})
            self.edits.update({it: seconds - self.edits[it] for it, seconds in edits.items()})
        there = {(it.name, edit) for it in self.crates for edit in map(os.path.basename, self.rt.edits_of(it)[0])}
        unproved = [it.name for it in self.crates if not self.seconds[it.name, "proof"]]
        self.missing = unproved + [" ".join(it) for it in sorted(there - self.edits.keys())]
        self.edits = collections.Counter({it: self.edits[it] for it in there})
        for (name, _), seconds in self.edits.items():
            self.seconds[name, "edits"] += seconds
        for name, seconds in self.runs.items():
            self.seconds[name, "programs"] += seconds
        return sum(sum(it.values()) for it in runs[-1])

    def time_edits(self):
        """Has the call of the prover for an edit name it."""
        must_fail = self.rt.must_fail
        self.rt.must_fail = lambda crate, edit, flags, *kept: must_fail(
            crate, edit, [*flags, f"--edit={os.path.basename(edit)}"], *kept)

    def time_runs(self):
        """Programs and tests run last, one after another."""
        run = self.rt.run

        def timed(crate, *how):
            before = seconds_of(resource.RUSAGE_CHILDREN)
            try:
                return run(crate, *how)
            finally:
                self.runs[crate.name] += seconds_of(resource.RUSAGE_CHILDREN) - before

        self.rt.run = timed

    def all_of(self, name):
        return sum(self.seconds[name, kind] for kind in KINDS)

    def columns(self, name):
        return [sum(self.seconds[name, kind] for kind in kinds) for kinds in COLUMNS]

    def tables(self):
        whole = sum(self.seconds.values()) + self.beside
        rows = [(it.name, *self.columns(it.name), self.all_of(it.name)) for it in self.crates]
        lines = [f"{whole / 60:.0f} processor minutes in all; the most memory of one check {self.memory / 1e6:.1f} GB.",
                 "",
                 "| Crate | Proof | Edits | Tests and programs | All |",
                 "|---|---|---|---|---|"]
        lines += [f"| `{name}` | {' | '.join(f'{it / 60:.1f}' for it in parts)} |" for name, *parts in rows]
        sums = [sum(parts) / 60 for parts in zip(*(self.columns(it.name) for it in self.crates))]
        lines += [f"| beside the prover | | | | {self.beside / 60:.1f} |",
                  f"| all | {' | '.join(f'{it:.1f}' for it in sums)} | {whole / 60:.1f} |", ""]
        tool = next(it for it in self.crates if it.name == "alpha_tool")
        chain = kit.longest_chain([*tool.below(), tool], lambda it: self.seconds[it.name, "proof"])
        minutes = [self.seconds[it.name, "proof"] / 60 for it in chain]
        lines += [f"The longest chain of proofs, for which a first build waits at one job a crate, is "
                  f"{sum(minutes):.1f} minutes: "
                  + ", ".join(f"`{it.name}` {part:.1f}" for it, part in zip(chain, minutes)) + ".", "",
                  "| Dearest edits | Processor seconds |", "|---|---|"]
        return (lines + [f"| `{crate}`, `{edit}` | {seconds:.0f} |"
                         for (crate, edit), seconds in self.edits.most_common(SHOWN)])


def machine():
    """What the figures were measured on, and when."""
    with open("/proc/cpuinfo") as file:
        model = re.search(r"model name\s*: (.*)", file.read())
    with open("/proc/meminfo") as file:
        memory = int(re.search(r"MemTotal:\s*(\d+)", file.read()).group(1))
    name = f" ({model.group(1).strip()})" if model else ""
    return f"{os.cpu_count()} processors{name}, {memory / 1e6:.0f} GB, {time.strftime('%Y-%m-%d')}"


def write(part, lines):
    """Puts lines in the place of a part of the page, behind the machine and the date."""
    text = "\n".join([f"On {machine()}.", "", *lines])
    print(text)
    with open(PAGE, encoding="utf-8") as file:
        page = file.read()
    marked = re.compile(rf"(<!-- {part} -->\n).*?(<!-- end -->)", re.S)
    with open(PAGE, "w", encoding="utf-8") as file:
        file.write(marked.sub(lambda found: f"{found[1]}\n{text}\n\n{found[2]}", page))


def seconds_by_function(rt, crate, tests):
    """The processor seconds of each function of a crate, as the prover ends with one after another at one job. What
    comes before the first, as reading the crate, goes with it."""
    words = [rt.rtlib.RATTLE, "check", *crate.words(["--jobs", "1"], tests=tests, keeps=False), "--progress"]
    tick, before, found = os.sysconf("SC_CLK_TCK"), 0.0, {}
    with subprocess.Popen([*rt.rtlib.guarded(), *words], cwd=crate.folder, stdin=subprocess.DEVNULL,
                          stdout=subprocess.PIPE, stderr=subprocess.STDOUT, text=True, errors="replace") as child:
        for line in child.stdout:
            name = re.match(r"checked (\S+), \d+ of \d+", line)
            if name:
                with open(f"/proc/{child.pid}/stat") as stat:
                    now = sum(map(int, stat.read().rpartition(")")[2].split()[11:15])) / tick
                found[name.group(1)], before = now - before, now
    if child.returncode:
        sys.exit(f"{crate.name} is not proved")
    return found


def functions(rt, names):
    rt.rtlib.guarded()
    crates = [it for it in rt.rtlib.crates_below(kit.TOP) if it.name in names]
    found = collections.Counter()
    for crate in crates:
        if any(it.build_rlib(["--jobs", "1"], anew=False) for it in crate.below()):
            sys.exit(f"a crate below {crate.name} is not proved")
        # With its tests a crate's own functions are proved too.
        found.update(seconds_by_function(rt, crate, crate.has_tests()))
    rows = [f"| `{name}` | {seconds:.0f} |" for name, seconds in found.most_common(SHOWN)]
    crates = ", ".join(f"`{it.name}`" for it in crates)
    write("functions", [f"Of {crates}:", "", "| Dearest functions | Processor seconds |", "|---|---|", *rows])


def main(words):
    rt = kit.load()
    if rt is None:
        sys.exit("the kit's command rt isn't on the path")
    os.chdir(kit.TOP)
    if words[:1] == ["--functions"]:
        return functions(rt, words[1:])
    gate = Gate(rt)
    status = gate.run()
    if status or gate.missing:
        print("\n".join(gate.tables()))
        sys.exit("\n".join(["the gate failed, or was not measured whole: docs/budget.md stays as it was",
                            *gate.missing]))
    write("gate", gate.tables())


if __name__ == "__main__":
    main(sys.argv[1:])
