"""Makes the lines of cases.tsv, by the program."""
import os
from concurrent.futures import ThreadPoolExecutor

import families
import packed
from parts import files, journal

RUN, NO_IMAGE, REFUSED = (0, 5, 6, 7), 4, (18, 19)


class Maker:
    """What asks the program for the answers of rows. The images stand in a scratch folder by their names."""

    def __init__(self, asked, scratch):
        self.asked, self.scratch = asked, scratch

    def lines(self):
        """The lines of all rows, in their order."""
        rows = [row for row in families.rows() if row.kind != "choose"]
        with ThreadPoolExecutor(2 * (os.cpu_count() or 1)) as pool:
            made = list(pool.map(self.case, enumerate(rows)))
        names = [case.file for case in made]
        if len(set(names)) != len(names):
            raise files.Refused(f"two cases have one name: "
                                f"{sorted(name for name in set(names) if names.count(name) > 1)[:5]}")
        return [packed.line_of(case) + "\n" for case in made]

    def case(self, numbered):
        number, row = numbered
        make = {"run": self.run, "image": self.image, "follow": self.late, "refuse": self.refuse}[row.kind]
        try:
            return make(row, f"{number}")
        except files.Refused as refused:
            raise files.Refused(f"{row.name}: {refused}") from refused

    def image_path(self, row):
        return os.path.join(self.scratch.folder.name, f"{row.image}.img")

    def call(self, status, *words, given=b""):
        found, out, notes = self.asked.call(*words, given=given)
        if found not in status:
            raise files.Refused(f"{' '.join(words)}: status {found}: {notes.strip()}")
        return out, "; ".join(notes.splitlines())

    def run(self, row, _):
        pieces = row.given if isinstance(row.given, list) else [row.given]
        words = ["run", "--complete", row.completion, "--steps", str(row.steps), self.image_path(row)]
        out, notes = self.call(RUN, *words, given=b"".join(pieces))
        return self.made(row, "run", notes, pieces, output=out)

    def image(self, row, number):
        path = self.scratch.file(f"{number}.edge", row.given)
        out, notes = self.call((NO_IMAGE,) if row.answer else RUN, "run", "--steps", str(row.steps), path)
        os.unlink(path)
        if row.answer not in (None, notes):
            raise files.Refused(f"the program answers {notes}, and {row.answer} is wanted")
        return self.made(row, "image", notes, [row.given], output=out)

    def recorded(self, row, number):
        """The journal of a run with late traps, and what it put and told."""
        chosen, kept = self.scratch.file(f"{number}.chosen", row.choices), self.scratch.file(f"{number}.kept", b"")
        words = ["record", "--force", "--complete", row.completion, "--steps", str(row.steps), "--choices", chosen,
                 self.image_path(row), kept]
        out, notes = self.call(RUN, *words, given=row.given)
        return journal.read_journal(kept), out, notes

    def late(self, row, number):
        kept, out, notes = self.recorded(row, number)
        return self.made(row, "late", notes, [row.given], row.choices, kept.spelled(), out)

    def refuse(self, row, number):
        kept, _, _ = self.recorded(row, number)
        answer = row.answer(kept) if callable(row.answer) else row.answer
        changed = row.change(kept)
        content = changed if isinstance(changed, bytes) else changed.spelled()
        _, notes = self.call(REFUSED, "replay", self.image_path(row), self.scratch.file(f"{number}.bad", content))
        if notes != answer:
            raise files.Refused(f"the program answers {notes}, and {answer} is wanted")
        return self.made(row, "refuse", answer, [b""], b"", content)

    @staticmethod
    def made(row, kind, answer, given, choices=b"", kept=b"", output=b""):
        return packed.Case(row.name, kind, row.image, row.completion, row.steps, answer, row.about, given, choices,
                           kept, output)
