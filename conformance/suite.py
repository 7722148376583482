"""The suite as it is run: its files and cases, and what is wrong with what an emulator makes of each."""
import os
import re
import struct
from collections import Counter, namedtuple

import calls
import packed
import telling
from differences import (ENDS, Told, end_difference, is_end, is_right, last, notes_difference, output_difference,
                         wanted_status)
from journal_bytes import ENDINGS, HEAD, REPORT, WAIT, end_of, items_of, logged_count, output_of

HERE = os.path.dirname(os.path.abspath(__file__))
Line = namedtuple("Line", "file kind image completion steps answer origin about")
# What is run: its name, what it is there for, a call that answers the first difference or None, and one that answers
# its files, as names and bytes.
Part = namedtuple("Part", "name about try_it files")
PARTS = ("output", "overflows", "barriers", "end")
COMPLETIONS = ("wrap", "saturate", "stop")


def manifest():
    """The lines of the manifest."""
    with open(os.path.join(HERE, "manifest.tsv"), encoding="ascii") as file:
        return [Line(*line.rstrip("\n").split("\t")) for line in file if not line.startswith("#")]


def content(path):
    path = os.path.join(HERE, path)
    if not os.path.exists(path):
        return b""
    with open(path, "rb") as file:
        return file.read()


class Tables:
    """The lines of both tables of the suite."""

    def __init__(self):
        self.lines, self.cases = manifest(), packed.cases()


class Suite:
    """The suite with its options: the command lines, the seconds that each has, and the parts that are compared."""

    def __init__(self, options, folder, tables=None):
        self.options, self.folder = options, folder
        tables = tables or Tables()
        # How many traps the recorded runs report, and how many words they execute while one is pending; and how many
        # calls had no end.
        self.reports = self.waits = self.hangs = 0
        self.images = {line.image: line for line in tables.lines if line.kind == "image"}
        lines = [line for line in tables.lines if self.is_meant(line.file)]
        self.notes = [line for line in lines if line.kind == "notes"]
        self.journals = [line for line in lines if line.kind in ("journal", "refused")]
        self.cases = [case for case in tables.cases if self.is_meant(case.file)]

    def is_meant(self, name):
        return not self.options.only or any(word in name for word in self.options.only)

    def call(self, command, pieces=(b"",), **names):
        """What a command line did."""
        ran = calls.call(calls.words_of(command, names), pieces, self.options.seconds)
        self.hangs += ran.status is None and ran.notes.startswith("no end")
        return ran

    def image(self, line):
        return os.path.join(HERE, "images", f"{line.image}.img")

    def file(self, case, ending, bytes_of):
        """A file of a case, in the folder of this run."""
        path = os.path.join(self.folder, f"{case.file}.{ending}")
        with open(path, "wb") as file:
            file.write(bytes_of)
        return path

    # ---- runs

    def run(self, line):
        """The first difference of a run over files, or None."""
        given = content(f"inputs/{line.image}.in")
        ran = self.call(self.options.run, [given], image=self.image(line), complete=line.completion, steps=line.steps)
        wanted = content(line.file).decode("ascii")
        return self.difference(line, ran, wanted, content(f"answers/{line.image}.{line.completion}.out"), given)

    def difference(self, line, ran, wanted, output, given):
        """The first difference between what a run wrote and what it should have, or None."""
        if ran.status is None:
            return Told(ran.notes)
        if is_right(ran, wanted, output):
            return None
        parts, how = self.options.parts, calls.end_text(ran.status)
        crashed = f"; {how}" if ran.status < 0 or ran.status not in (0, 5, 6, 7) else ""
        lines = telling.Lines(line.image, line.completion, given, line.kind == "late")
        without_end = [part for part in parts if part != "end"]
        found = notes_difference(ran.notes, wanted, without_end, lines)
        if "end" in parts and (found is None or found.is_short):
            ended = end_difference(ran, wanted, line.image)
            found = (ended if found is None or ended is None
                     else Told(f"{found.text}; {ended.text}", *ended.calls, *found.calls))
        wrong = output_difference(line, ran.out, output, given) if "output" in parts else None
        if (wrong
            and (found is None
                 or ran.status == 0 and last(ran.notes).startswith("exit") and "barrier " not in found.text)):
            found = wrong if found is None else Told(f"{wrong.text}; {found.text}", *wrong.calls, *found.calls)
        if found is None and "end" in parts:
            found = notes_difference(ran.notes, wanted, parts, lines) or status_difference(ran.status, last(wanted))
            crashed = ""
        if found is not None:
            found.text += crashed
        return found

    # ---- cases of the table

    def case(self, case):
        """The first difference of a small run, or None."""
        ran = self.call(self.options.run, case.given, image=self.image(case), complete=case.completion,
                        steps=case.steps)
        return self.of_block(case, self.difference(case, ran, notes_of(case), case.output, b"".join(case.given)))

    def edge(self, case):
        """What is wrong with the answer to an image that is bad, or at the edge of a rule."""
        path = self.file(case, "img", case.given[0])
        ran = self.call(self.options.run, image=path, complete=case.completion, steps=case.steps)
        os.unlink(path)
        if not case.answer.startswith("image "):
            found = self.difference(case, ran, notes_of(case), case.output, b"")
            return found if found is None else Told(f"{found.text}. It is a good image")
        return Told(ran.notes) if ran.status is None else refusal_difference(ran, case.answer)

    def choose(self, case):
        """The first difference of a run with late traps by its choices, or None."""
        path = self.file(case, "choices", case.choices)
        ran = self.call(self.options.choose, case.given, image=self.image(case), complete=case.completion,
                        steps=case.steps, choices=path)
        os.unlink(path)
        return self.of_block(case, self.difference(case, ran, notes_of(case), case.output, b"".join(case.given)))

    @staticmethod
    def of_block(case, difference):
        """A difference, with the lines of the block that the input chooses."""
        if difference is not None and case.image != "-":
            difference.calls += (lambda: [telling.block(case.image, b"".join(case.given))],)
        return difference

    # ---- journals

    def follow_file(self, line):
        return self.follow(line, os.path.join(HERE, line.file), content(line.file), line.answer, line.kind == "refused")

    def follow_case(self, case):
        path = self.file(case, "journal", case.journal)
        found = self.follow(case, path, case.journal, answer_of(case), case.kind == "refuse")
        os.unlink(path)
        return self.of_block(case, found) if case.kind == "late" else found

    def follow(self, line, path, whole, wanted, is_refused):
        """What is otherwise of a journal's judgement, or None."""
        ran = self.call(self.options.follow, image=self.image(line), journal=path)
        if ran.status is None:
            return Told(ran.notes)
        said = verdict_of(ran)
        if not is_refused:
            if ran.status == 0:
                return None if said in ("", wanted) else Told(f"`{said}`, and `{wanted}` is wanted")
            about = self.images[line.image].about
            return Told(f"a run is refused: {said or last(ran.notes)}. {line.image}: {about}",
                        lambda: [*where_refused(line, whole, said), died(ran)])
        if ran.status == 0 or not said.startswith(("norun", "journal")):
            return Told(f"it is accepted, and should be refused: {line.about}" if ran.status == 0 else
                        f"{calls.end_text(ran.status)} without a line that refuses it: {last(ran.notes)}",
                        lambda: where_wanted(line, whole, wanted))
        expected = wanted if said.strip() not in ("norun", "journal") else wanted.split()[0]
        if ran.status < 0:
            return Told(f"`{said}`, and then {calls.end_text(ran.status)}")
        return (None if said.strip() == expected
                else Told(f"`{said}`, and `{wanted}` is wanted: {line.about}",
                          lambda: where_wanted(line, whole, wanted)))

    # ---- recorded runs

    def record(self, line, seed):
        """What is wrong with a journal that the emulator has recorded, or None."""
        journal = os.path.join(self.folder, f"{line.image}.{line.completion}.{seed}.journal")
        given = content(f"inputs/{line.image}.in")
        ran = self.call(self.options.record, [given], image=self.image(line), complete=line.completion,
                        steps=line.steps, seed=seed, journal=journal)
        if ran.status is None or not os.path.exists(journal):
            return Told(f"no journal: {last(ran.notes)}")
        if ran.status < 0:
            return Told(f"the journal is kept, and then {calls.end_text(ran.status)}")
        judged = self.call(self.options.judge, image=self.image(line), journal=journal)
        said = verdict_of(judged)
        if judged.status != 0:
            whole = content(journal)
            return Told(f"the journal is refused: {said or last(judged.notes)}",
                        lambda: [*where_wanted(line, whole, said), *self.where_put(line, whole, said, given)])
        try:
            whole = content(journal)
            is_accepted = self.images[line.image].answer == "accepted"
            return (self.recorded(line, whole, said, given) or told_of_record(line, ran, whole, is_accepted, seed)
                    or status_difference(ran.status, end_of(whole)))
        except (struct.error, IndexError, ValueError):
            return Told("the judge accepts it, and it is no journal (docs/journals.md)")
        finally:
            os.unlink(journal)

    @staticmethod
    def where_put(line, whole, said, given):
        """What the output of a recorded run has otherwise, where that is known without its traps."""
        put, wanted = output_of(whole), content(f"answers/{line.image}.{line.completion}.out")
        found = output_difference(line, put, wanted, given) if said.startswith("norun kind 2") else None
        return [found.text, *found.lines()] if found else []

    def recorded(self, line, whole, said, given):
        """What is wrong with a journal that is a run, but not one that goes to the end as it should."""
        _, completion, ending, _, _, taken, put, _ = HEAD.unpack_from(whole)
        self.count(whole)
        if COMPLETIONS[completion] != line.completion:
            return Told(f"the journal is of a run by {COMPLETIONS[completion]}")
        units = re.match(r"run units (\d+) ", said)
        if units and (ending == 0 and int(units[1]) < int(line.steps)):
            return Told(f"the journal has no end, and {units[1]} of {line.steps} units")
        if units and int(units[1]) > int(line.steps):
            return Told(f"the journal has {units[1]} units, and {line.steps} are made at most")
        if self.images[line.image].answer == "accepted":
            # What is accepted runs the same however late its traps come.
            end, wanted = end_of(whole), last(content(line.file).decode("ascii"))
            if end != wanted:
                return Told(f"the journal ends by `{end}`, and `{wanted}` is wanted")
            if output_of(whole) != content(f"answers/{line.image}.{line.completion}.out"):
                return Told(f"the journal has {put} bytes of another output than the run without late traps")
        return (None if whole[HEAD.size:HEAD.size + taken] == given[:taken]
                else Told("the journal has another input than it was given"))

    def count(self, whole):
        kinds = Counter(kind for kind, _ in items_of(whole))
        self.waits += kinds[WAIT]
        self.reports += kinds[REPORT]

    # ---- all of it

    def parts(self):
        """What is run, in its order."""
        if self.options.run:
            for line in self.notes:
                yield Part(line.file, self.images[line.image].about, lambda line=line: self.run(line),
                           lambda line=line: self.files_of_line(line))
            yield from (self.part(case, self.case if case.kind == "run" else self.edge) for case in self.cases
                        if case.kind in ("run", "image"))
        if self.options.follow:
            for line in self.journals:
                yield Part(line.file, line.about, lambda line=line: self.follow_file(line),
                           lambda line=line: self.files_of_line(line))
            yield from (self.part(case, self.follow_case) for case in self.cases if case.kind in ("late", "refuse"))
        if self.options.choose:
            yield from (self.part(case, self.choose, " by choices") for case in self.cases if case.kind == "late")
        if self.options.record:
            for line in self.notes:
                for seed in range(1, self.options.seeds + 1):
                    yield Part(f"{line.image} by {line.completion} with seed {seed}", self.images[line.image].about,
                               lambda line=line, seed=seed: self.record(line, seed),
                               lambda line=line: self.files_of_line(line))

    @staticmethod
    def part(case, try_it, more=""):
        """A small case that is run by one of the calls above."""
        return Part(case.file + more, case.about, lambda: try_it(case), lambda: files_of_case(case))

    def files_of_line(self, line):
        """The files of a line of the manifest."""
        paths = [f"images/{line.image}.img", f"inputs/{line.image}.in", f"sources/{line.image}.s", line.file]
        paths += [f"answers/{line.image}.{line.completion}.out"] if line.kind == "notes" else []
        return {os.path.basename(path): content(path) for path in paths if os.path.exists(os.path.join(HERE, path))}


# ---- what is told


def notes_of(case):
    return case.answer.replace("; ", "\n") + "\n"


def files_of_case(case):
    """The files that a small case would have."""
    parts = {"img" if case.kind == "image" else "in": b"".join(case.given), "choices": case.choices,
             "journal": case.journal, "out": case.output}
    found = {f"{case.file}.{ending}": part for ending, part in parts.items() if part}
    return found if case.image == "-" else found | {f"{case.image}.img": content(f"images/{case.image}.img")}


def answer_of(case):
    """The line of a journal of the table."""
    if case.kind == "refuse":
        return case.answer
    units = reports = 0
    for kind, at in items_of(case.journal):
        units += struct.unpack_from("<I", case.journal, at + 1)[0] if kind == 0 else kind == 1
        reports += kind == REPORT
    return f"run units {units} reports {reports}"


def verdict_of(ran):
    """The line of a verdict on a journal, or an empty one."""
    said = [text for text in (ran.out.decode("utf-8", "replace") + ran.notes).splitlines()
            if text.startswith(("run units", "norun", "journal"))]
    return said[-1] if said else ""


def died(ran):
    return calls.end_text(ran.status) if ran.status < 0 else None


def where_refused(line, whole, said):
    """Where the step of a run is that an emulator refuses, as far as its line says it."""
    found = re.match(r"norun kind (\d) at (\d+)", said)
    if not found:
        return []
    kind, at = int(found[1]), int(found[2])
    if kind == 1:
        return telling.item_lines(line.image, whole, at)
    _, _, ending, first, second, *_ = HEAD.unpack_from(whole)
    put = output_of(whole)
    if kind == 2 and len(put) == telling.SHOWN and isinstance(line, packed.Case):
        return [f"that byte shows {telling.shown_name(at, put)}"] if at < len(put) else []
    return [f"the run ends by `{ENDINGS[ending].format(first, second)}`"] if kind == 3 else []


def where_wanted(line, whole, wanted):
    """Where the item is that can't be."""
    found = re.match(r"norun kind 1 at (\d+)", wanted)
    return telling.item_lines(line.image, whole, int(found[1])) if found else []


def status_difference(status, end):
    """What is wrong with the status behind the line of an end."""
    number = wanted_status(end)
    return None if status == number else Told(f"{calls.end_text(status)} behind `{end}`, and {number} is wanted")


def refusal_difference(ran, wanted):
    """What is wrong with the refusal of a bad image."""
    lines = ran.notes.splitlines()
    said = next((line for line in lines if line.startswith("image")), "")
    run_line = next((line for line in lines if is_end(line) or line.startswith(("overflow ", "barrier "))), None)
    if ran.status == 0 or run_line is not None or ran.out:
        return Told(f"it is run, and should be refused: `{wanted}`" + (f"; `{run_line}`" if run_line else ""))
    if ran.status < 0:
        return Told(f"{calls.end_text(ran.status)}, and `{wanted}` is wanted")
    return Told(f"`{said}`, and `{wanted}` is wanted") if said.startswith("image kind") and said != wanted else None


def told_of_record(line, ran, whole, is_accepted, seed):
    """What is wrong with the lines that an emulator writes while it records, where it writes any. The addresses of a
    refused image's overflows are followed for the first seed; for others as many lines as reports must be told."""
    lines = ran.notes.splitlines()
    if not any(one.startswith("overflow ") or is_end(one) for one in lines):
        return None
    have = [one for one in lines if one.startswith("overflow ")]
    if is_accepted:
        want = [one for one in content(line.file).decode("ascii").splitlines() if one.startswith("overflow ")]
    else:
        logged = telling.logged(line.image, whole) if seed == 1 or len(have) != logged_count(whole) else None
        want = have if logged is None else [f"overflow {address:016x}" for address in logged]
    if have != want:
        at = next((n for n, (one, other) in enumerate(zip(have, want)) if one != other), min(len(have), len(want)))
        one, other = (f"`{rows[at]}`" if at < len(rows) else "none" for rows in (have, want))
        return Told(f"overflow {at + 1} that is told while it is recorded is {one}, and {other} is wanted")
    ends, wanted = [one for one in lines if is_end(one)], end_of(whole)
    return (Told(f"the end that is told while it is recorded is `{ends[-1]}`, and `{wanted}` is wanted")
            if ends and ends[-1] != wanted else None)
