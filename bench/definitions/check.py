#!/usr/bin/env python3
"""Runs the definitions that the clauses of accepted code reach, and holds them against what is from elsewhere.

    bench/definitions/check.py [--whole] [--seed N] [--lines] [--write] [--slips [N] [--named TEXT]] [PROGRAM]

A program of Python translates the text of the definitions, those of the clauses that data.py names and of answers of
`run`, into functions; nothing of them is written by hand. These are held against words that GNU as made, results that
were measured on qemu-alpha, worked verdicts and images, programs with their output, the models of companions/parts, and
the built program, crates/alpha_tool/out/alpha_tool where none is given. A sample takes about a minute of a processor,
--whole some twenty.

How many lines of each file were run is held against the reading order of docs/theorems.md; --lines tells which weren't,
and --write writes the numbers there. --slips changes N of the definitions' lines, all where N is left out, and tells
which changes no case of the sample finds; with --named those alone that it tells by a name with this text.
"""
import argparse
import os
import random
import sys
import time

sys.dont_write_bytecode = True
HERE = os.path.dirname(os.path.abspath(__file__))
sys.path = [path for path in sys.path if os.path.abspath(path or ".") != HERE] + [os.path.dirname(HERE)]
from definitions import calls, commands, data, facts, images, journals, library, lines, moments, places  # noqa: E402
from definitions import refused, replies, runs, sessions, slips, spellings, tables, words  # noqa: E402
from definitions.asking import Asked  # noqa: E402
from definitions.running import Definitions, deeply  # noqa: E402
from definitions.sources import TOP  # noqa: E402
from definitions.translate import key_of  # noqa: E402

GROUPS = [refused.Refused(), library.Library(), words.Words(), words.Values(), words.Taken(), tables.Tables(),
          tables.Lines(), places.Places(), places.Longest(), runs.Programs(), runs.Sequential(), runs.Late(),
          moments.Moments(), moments.Waits(), moments.Each(), images.Fronts(), images.Images(), calls.Ran(),
          calls.Checked(), calls.Listed(), calls.Spoken(), replies.Readings(), replies.Replied(), commands.Runs(),
          sessions.Commands(), sessions.Sessions(), spellings.Spellings(), journals.Records(), journals.Replays(),
          facts.Facts(), facts.Follows(), facts.Scans()]
MOST_SHOWN, LONGEST = 3, 600


def tried(group, d, case):
    """What the definitions have otherwise than the case; an exception is a difference too."""
    try:
        return group.difference(d, case)
    except Exception as error:  # Of whatever kind: a definition that doesn't run is what is looked for.
        return f"{type(error).__name__}: {error}"


def held(group, d, watch, cases):
    """Tries the cases, the first ones watched, and tells how many there were and the first differences."""
    begun, differences = time.process_time(), []
    for number, case in enumerate(cases):
        if number < lines.MOST:
            found = tried(group, watch.begin(), case)
            watch.end(group, number)
        else:
            found = tried(group, d, case)
        if found:
            differences.append(found)
    print(f"{group.name}: {len(cases):,} cases, {len(differences) or 'no'} difference{'s' * (len(differences) > 1)} "
          f"({time.process_time() - begun:.1f} s): {group.about}", flush=True)
    for text in differences[:MOST_SHOWN]:
        # What is found stands at the end, behind the case.
        print(f"    {text if len(text) <= LONGEST else text[:LONGEST // 2] + ' .. ' + text[-LONGEST // 2:]}")
    return not differences


def untranslated(d):
    """The definitions that aren't translated; one that nobody has named is an error."""
    for declaration, reason in sorted(d.translation.refused.items(), key=lambda one: str(one[0])):
        print(f"not translated: {key_of(declaration)}: {reason}")
    return all(key_of(declaration) in data.NAMED for declaration in d.translation.refused)


def work(options, asked):
    d, watch = Definitions(), lines.Watch()
    size = "whole" if options.whole else "sample"
    fine = untranslated(d)
    made = {}
    for group in GROUPS:
        cases = list(group.cases(random.Random(f"{group.name} {options.seed}"), group.counts[size], asked))
        fine = held(group, d, watch, cases) and fine
        made[group] = cases
    print(f"{len(watch.d.translation.functions):,} definitions were run, with {asked.calls:,} calls of the program")
    fine = lines.held(watch, options.write) and fine
    if options.lines:
        lines.tell(watch)
    if options.slips is not None:
        fine = slips.tell(made, watch, options.slips, options.named, random.Random(options.seed)) and fine
    return fine


def main():
    parser = argparse.ArgumentParser(prog="bench/definitions/check.py", description=__doc__.split("\n")[0])
    parser.add_argument("program", metavar="PROGRAM", nargs="?", default=str(TOP / "crates/alpha_tool/out/alpha_tool"))
    parser.add_argument("--whole", action="store_true", help="all cases, and not a sample")
    parser.add_argument("--seed", type=int, default=1, help="what random cases are drawn by (1)")
    parser.add_argument("--lines", action="store_true", help="tell how many lines of each file were run")
    parser.add_argument("--write", action="store_true", help="write these numbers into docs/theorems.md")
    parser.add_argument("--slips", type=int, nargs="?", const=0, metavar="N", help="change N lines, or each")
    parser.add_argument("--named", action="append", default=[], metavar="TEXT", help="only slips by names with it")
    options = parser.parse_args()
    if not os.access(options.program, os.X_OK) or os.path.isdir(options.program):
        parser.error(f"{options.program}: no program is there")
    with Asked(options.program) as asked:
        sys.exit(0 if deeply(work, options, asked) else 1)


if __name__ == "__main__":
    main()
