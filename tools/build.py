#!/usr/bin/env python3
"""Proves every crate that the program stands on, and builds the program. ./alpha calls this where the program is
missing or was made of other sources.

    tools/build.py [--keep]

Crates that don't stand on one another are proved side by side, by as many processors as memory allows (RT_JOBS=N: by
N), those with the longest chain of others behind them first. Two jobs share the functions of a crate in a long chain,
for which everything waits, and processors that are left over those of any crate: more jobs of one crate take more of
the processors' time together, which is what a build lacks. After an interruption the next build goes on behind the
crates that were proved. Of a library its statements are kept, which the crates above it load quickly; with --keep its
proofs too, which takes longer and more disk, and from which `rt check` goes on where a crate is changed. The new
program replaces the old one once it is whole. The log is .alpha-build.log, which holds all of a build, its
interruptions too.

Where the program can't be built the status is 70, and the program that was there before stays.
"""
import functools
import os
import shutil
import signal
import sys
import threading
import time

sys.dont_write_bytecode = True
import kit

FAILED = kit.NO_PROGRAM
LOG = os.path.join(kit.TOP, ".alpha-build.log")
PROGRAM = os.path.join(kit.TOP, "crates/alpha_tool/out/alpha_tool")
# How many builds a call makes where sources are changed during each of them.
ROUNDS = 4
# Chains shorter than the longest one by less than this part of it are long.
LONG = 0.2
# How many jobs share a crate of a long chain.
SHARED = 2
# How the last line of a whole build begins.
BUILT = "built"
# What a check takes where it loads statements alone, as a part of the memory that the kit counts on, and what each
# further job of it takes, as a part of the first one.
MEMORY, MEMORY_A_JOB = 0.4, 0.6
# As measured of all crates from nothing. A program's check loads all libraries, which is as much work as a part of
# their lines.
SECONDS_A_LINE, PART_OF_A_LIBRARY = 0.05, 1 / 20
MEGABYTES_A_LINE, MEGABYTES_A_KEPT_LINE = 0.014, 0.09


def say(text, log=None):
    for to in filter(None, (log, sys.stderr)):
        print(f"alpha: {text}", file=to, flush=True)


def give_up(text, log=None):
    """Ends at once, with all that was started: what is proved is kept."""
    say(text, log)
    os._exit(FAILED)


class Named:
    """What the check of one crate prints, line by line in the log that all share."""

    def __init__(self, log, name):
        self.log, self.name, self.part, self.last = log, name, "", []

    def write(self, text):
        *lines, self.part = (self.part + text).split("\n")
        for line in lines:
            self.log.write(f"{self.name}: {line}\n")
        self.last = [*self.last, *filter(None, lines)][-8:]

    def flush(self):
        self.log.flush()


def open_log():
    """The log, emptied where the build before it was whole."""
    try:
        with open(LOG, encoding="utf-8", errors="replace") as log:
            is_whole = log.read().rpartition("\n")[0].rpartition("\n")[2].startswith(f"alpha: {BUILT} ")
    except FileNotFoundError:
        is_whole = True
    return open(LOG, "w" if is_whole else "a", encoding="utf-8")


def tell_beforehand(rt, crates, left, keeps, log):
    """Says how long what is left takes, and how much disk."""
    number = os.environ.get("RT_JOBS", "")
    lanes = int(number) if number.isdigit() else rt.processors()
    lines = {it: kit.lines_of(it) for it in crates}
    lines[crates[-1]] += int(PART_OF_A_LIBRARY * sum(lines.values()))
    lines.update({it: 0 for it in crates if it not in left})
    chain, whole = sum(map(lines.get, kit.longest_chain(crates, lines.get))), sum(lines.values())
    # Some of the processors share each crate of the longest chain.
    minutes = 1 + int(SECONDS_A_LINE * max(chain / min(lanes, 2), whole / lanes) // 60)
    needed = 1 + int((MEGABYTES_A_KEPT_LINE if keeps else MEGABYTES_A_LINE) * whole)
    free = shutil.disk_usage(kit.TOP).free // 1_000_000
    done = f", {len(crates) - len(left)} of them proved already" if len(left) < len(crates) else ""
    say(f"proving the program: {len(crates)} crates{done}; about {minutes} min on {lanes} idle processors"
        f" and {needed} MB of disk, of which {free} MB are free", log)
    if needed > free:
        say("there may be too little disk", log)


class Build:
    def __init__(self, rt, tool, keeps, log):
        self.rt, self.tool, self.keeps, self.log = rt, tool, keeps, log
        self.crates = [*tool.below(), tool]
        self.seconds, self.counting = {}, threading.Lock()

    def run(self, stamp, done):
        start = time.time()
        # A library fits those that it was made over, so what stands on one that is missing is made anew too.
        done = {it for it in done if done.issuperset(it.below())}
        left = [it for it in self.crates if it not in done]
        tell_beforehand(self.rt, self.crates, left, self.keeps, self.log)
        self.count = len(done)
        slack = kit.slack_of(self.crates, lambda it: kit.lines_of(it) if it in left else 0)
        tasks = {}
        for crate in left:
            waits = [(it.name, "proof") for it in crate.below() if it not in done]
            least = self.jobs_within(crate) if slack[crate] < LONG else 1
            needs = self.memory(crate) * (1 + MEMORY_A_JOB * (least - 1))
            prove = functools.partial(self.prove, crate, least)
            tasks[crate.name, "proof"] = waits, kit.lines_of(crate), needs, prove
        self.rt.in_lanes(tasks)
        self.replace(stamp)
        chain = kit.longest_chain(self.crates, lambda it: self.seconds.get(it, 0))
        chain = [it for it in chain if it in self.seconds]
        say(f"the longest chain: {', '.join(f'{it.name} {self.seconds[it]:.0f}' for it in chain)};"
            f" {sum(map(self.seconds.get, chain)):.0f} seconds of {sum(self.seconds.values()):.0f} in all", self.log)
        say(f"{BUILT} in {time.time() - start:.0f} seconds", self.log)

    def jobs_within(self, crate):
        """How many jobs may share a crate's functions, by the processors and as many as half of the free memory
        holds."""
        if os.environ.get("RT_JOBS"):
            return 1
        held = 1 + int((self.rt.free() / 2 / self.memory(crate) - 1) / MEMORY_A_JOB)
        return max(1, min(self.rt.processors(), SHARED, held))

    def memory(self, crate):
        """The memory that one job takes."""
        return self.rt.need(crate) * (1 if self.keeps else MEMORY)

    def prove(self, crate, least, _given, jobs):
        start = time.time()
        crate.out = Named(self.log, crate.name)
        try:
            os.makedirs(f"{crate.folder}/out", exist_ok=True)
            flags = ["--jobs", str(max(jobs, least))]
            status = self.link(flags) if crate is self.tool else self.make_library(crate, flags)
        except (SystemExit, OSError) as error:
            crate.out.write(f"{error}\n")
            status = FAILED
        with self.counting:
            if status:
                print("\n".join(crate.out.last), file=sys.stderr)
                give_up(f"the build failed at {crate.name}: .alpha-build.log has all that it said", self.log)
            self.count += 1
            self.seconds[crate] = time.time() - start
            say(f"{self.count} of {len(self.crates)}: {crate.name} is proved, {self.seconds[crate]:.0f} seconds",
                self.log)

    def make_library(self, crate, flags):
        """Proves a library. Its stamp, which the kit leaves out where statements alone are kept, says that it is
        whole."""
        stamp = crate.stamp()
        status = crate.build_rlib(flags, anew=not self.keeps)
        if status == 0 and not self.keeps and stamp == crate.stamp():
            with open(f"{crate.folder}/out/rlib/stamp", "w", encoding="utf-8") as file:
                file.write(stamp)
        return status

    def link(self, flags):
        """Proves `main`, and makes the new program beside the old one."""
        made = f"{PROGRAM}.new"
        return (self.tool.compile(flags, f"{made}.o")
                or self.tool.link(f"{made}.o", os.path.relpath(made, self.tool.folder)))

    def replace(self, stamp):
        """Puts the new program in the place of the old one. Where no source was changed meanwhile it has its stamp, so
        that `rt run` takes it as its own too."""
        os.remove(f"{PROGRAM}.new.o")
        os.replace(f"{PROGRAM}.new", PROGRAM)
        if kit.look_at(self.rt, self.tool) == (stamp, set(self.tool.below())):
            kit.put_stamp(self.rt, PROGRAM, stamp)


def build(rt, tool, keeps):
    """Builds the program, once more where sources are changed meanwhile, until it is that of the sources as they
    stand."""
    rt.Crate.cuts_libraries = not keeps
    for _ in range(ROUNDS):
        stamp, done = kit.look_at(rt, tool)
        if kit.has_stamp(rt, PROGRAM, stamp):
            return
        with open_log() as log:
            Build(rt, tool, keeps, log).run(stamp, done)
    if not kit.has_stamp(rt, PROGRAM, kit.look_at(rt, tool)[0]):
        give_up("the sources were changed during each build: call again when they rest")


def main():
    # As the kit's commands: an interruption ends all that was started.
    signal.signal(signal.SIGINT, signal.SIG_DFL)
    try:
        rt = kit.load()
        if rt is None:
            give_up(f"{kit.MISSING}, without which nothing can be proved")
        rt.rtlib.guarded()
        tool = kit.tool(rt)
        _locks = rt.rtlib.lock([*tool.below(), tool])
        build(rt, tool, keeps="--keep" in sys.argv[1:])
    except (SystemExit, OSError) as error:
        give_up(f"the build failed: {error}")


if __name__ == "__main__":
    main()
