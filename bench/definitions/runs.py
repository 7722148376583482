"""Answers of `run` and `run --imprecise`: against programs whose output was measured elsewhere, and the built
program."""
from itertools import chain, repeat

from . import drawn
from .data import Ahead
from .reference import NONE, parts_of, program_of, some, status_of
from .reference import image as images
from .translate import record
from .words import VECTORS, rows

MOST_STEPS = {"sample": 700, "whole": 60_000}
# Runs by words that lie ahead have two thousand of them a step.
MOST_AHEAD = 9


def file_bytes(name):
    return (VECTORS / name).read_bytes()


def options_of(how, steps, watch):
    return record(complete={"wrap": ("Wrap",), "saturate": ("Saturate",), "stop": ("Stop",)}[how], steps=steps,
                  watch=watch)


def shown(answer):
    """An answer as the program gives it: status, output, notes, and the input left."""
    return status_of(answer.status), bytes(answer.output), bytes(answer.trace + answer.line), answer.left


class Programs:
    name, about = ("programs",
                   "random programs and C programs whose output, end, notes and steps were measured elsewhere")
    counts = {"sample": 14, "whole": 1_000}
    is_quick = False

    def cases(self, chooser, count, asked):
        known = rows("programs.tsv")
        for name, given, out, notes, last, steps in (known if count > len(known)
                                                     else known[:count // 2] + known[20:20 + count // 2]):
            most = MOST_STEPS["whole" if count > len(known) else "sample"]
            yield (images.read_image(VECTORS / name), file_bytes(given) if (VECTORS / given).exists() else b"",
                   file_bytes(out),
                   None if notes == "-" else file_bytes(notes), last, None if steps == "-" else int(steps), most)

    def difference(self, d, case):
        whole, given, out, notes, last, steps, most = case
        d.forget()
        run = d("alpha_seq.Run.sequential")(program_of(whole, "wrap"), tuple(given), most, True)
        if run.end == NONE:
            # It goes on: what it has put so far is a front.
            return "" if out.startswith(bytes(run.output)) else f"the output is no front: {bytes(run.output)[:40]!r}"
        answer = d("alpha_cmd.RunAnswer.answer_shown")(some(tuple(given)), run)
        _, output, _, _ = shown(answer)
        line = bytes(answer.line).decode().rstrip("\n")
        if (output, line) != (out, last) or steps is not None and run.steps != steps:
            return f"{line!r} after {run.steps} steps with {output[:40]!r}; {last!r} after {steps} is wanted"
        told = bytes(d("alpha_seq.Run.sequential")(program_of(whole, "wrap"), tuple(given), most, False).notes
                     + answer.line)
        return "" if notes is None or told == notes else f"notes {told[-60:]!r}, and {notes[-60:]!r} is wanted"


class Sequential:
    name, about = "run", "output, notes and status of `run`, of random programs"
    counts = {"sample": 250, "whole": 8_000}
    is_quick = False

    def cases(self, chooser, count, asked):
        for _ in range(count):
            whole = drawn.program(chooser, chooser.random() < 0.4, chooser.choice((1, 1, 2)))
            how, steps = chooser.choice(("wrap", "saturate", "stop")), chooser.choice((0, 1, 7, 20, 120, 120, 120))
            given = bytes(chooser.randrange(256) for _ in range(chooser.choice((0, 5, 30))))
            words = ["run", "--complete", how, "--steps", str(steps)] + ["--watch"] * chooser.choice((0, 1, 1))
            status, out, notes = asked.call(*words, "FILE", given=given, FILE=whole.spelled())
            yield whole, how, steps, words[-1] == "--watch", given, status, out, notes

    def difference(self, d, case):
        whole, how, steps, watch, given, status, out, notes = case
        d.forget()
        answer = d("alpha_cmd.ToldRun.answer_told")(options_of(how, steps, watch), parts_of(whole), tuple(given))
        found = shown(answer)
        if found[:3] != (status, out, notes):
            return f"{whole.spelled().hex()} by {how}: {found[:3]}, and {(status, out, notes)} is wanted"
        taken = len(given) - len(answer.left[1])
        if answer.left != some(tuple(given)[taken:]):
            return f"{answer.left} is left of {given}"
        return self.listed(d, program_of(whole, how), tuple(given), steps)

    def listed(self, d, program, given, steps):
        """The run as a list of events, which this input fed and no other one, and of which each front is a run too."""
        start = d("alpha_seq.Start.start")(program)
        run = d("alpha_seq.Run.after")(program, start, given, steps)
        is_run, fed = d("alpha_seq.Run.Runs"), d("alpha_seq.Run.Fed")
        begun, events, taken = d("alpha_seq.Run.begins")(start), run.events, d("alpha_seq.Run.taken")(run.events)
        reads = any(event[0] == "Barriered" and event[1][0] == "Read" for event in events)
        found = (is_run(program, begun, events, run.at), d("alpha_seq.Run.ReadNothing")(events),
                 fed(given, events, run.left),
                 fed(given, events, run.left + (1,)), fed(tuple(byte ^ 1 for byte in given), events, run.left),
                 run.at.event[0] == "Ends" and is_run(program, begun, events + events[-1:], run.at),
                 taken + run.left == given)
        wanted = True, not reads, True, False, not given, False, True
        return "" if found == wanted else f"{program.image} over {given}: {found}, and {wanted} is wanted"


class Late:
    name, about = ("run --imprecise",
                   "output, notes and status of `run --imprecise` by words of choices, of random programs")
    counts = {"sample": 250, "whole": 8_000}
    is_quick = False

    def cases(self, chooser, count, asked):
        for _ in range(count):
            is_forced = chooser.random() < 0.6
            whole = drawn.program(chooser, not is_forced or chooser.random() < 0.3, chooser.choice((1, 1, 2)))
            how, steps = chooser.choice(("wrap", "saturate", "stop")), chooser.choice((0, 2, 9, 30, 100, 100))
            given = bytes(chooser.randrange(256) for _ in range(chooser.choice((0, 5, 30))))
            chosen = [chooser.choice((drawn.number(chooser), chooser.getrandbits(64), 1, 5, 6))
                      for _ in range(chooser.choice((0, 9, 60)))]
            words = ["run", "--imprecise", "--choices", "CHOICES", "--complete", how, "--steps", str(steps)]
            words += ["--force"] * is_forced + ["--watch"] * chooser.choice((0, 1, 1))
            content = b"".join(word.to_bytes(8, "little") for word in chosen)
            answered = asked.call(*words, "FILE", given=given, FILE=whole.spelled(), CHOICES=content)
            yield whole, how, steps, words[-1] == "--watch", is_forced, given, tuple(chosen), answered

    def difference(self, d, case):
        whole, how, steps, watch, is_forced, given, chosen, answered = case
        d.forget()
        program, given = program_of(whole, how), tuple(given)
        start = d("alpha_seq.Start.start")(program)
        begun = d("alpha_imprecise.ChosenRun.begun")(start, given, NONE, 0, chosen)
        making = d("alpha_imprecise.ChosenRun.chosen_run")(program, begun, steps)
        run = d("alpha_imprecise.ChosenRun.imprecise")(program, given, chosen, steps, watch)
        is_shown = run.drawn == making.count and run == d("alpha_imprecise.ChosenRun.shown_chosen_run")(watch, making)
        if not is_shown or not self.is_listed(d, program, start, given, chosen, making):
            return f"{whole.spelled().hex()} by {how}: the list of its steps is another run"
        if steps <= MOST_AHEAD and not self.is_by_those_ahead(d, case, program, run):
            return f"{whole.spelled().hex()} by {how}: another run by words that lie ahead"
        if not is_forced:
            run = d("alpha_cmd.Commands.Imprecise.with_drawn")(d("alpha_seq.Run.sequential")(program, given, steps,
                                                                                             watch), run.drawn)
        found = shown(d("alpha_cmd.Commands.Imprecise.answer_imprecise")(some(given), run))[:3]
        return "" if found == answered else f"{whole.spelled().hex()} by {how}: {found}, and {answered} is wanted"

    def is_by_those_ahead(self, d, case, program, run):
        """Whether the run by these words and zeros behind them is the same; where it isn't forced it shows the
        sequential one."""
        _, _, steps, watch, _, given, chosen, _ = case
        found = [d("alpha_cmd.Commands.Imprecise.run_by")(is_forced, program, tuple(given),
                                                          Ahead(chain(chosen, repeat(0)).__next__), steps, watch)
                 for is_forced in (True, False)]
        sequential = d("alpha_seq.Run.sequential")(program, tuple(given), steps, watch)
        return found == [run, d("alpha_cmd.Commands.Imprecise.with_drawn")(sequential, run.drawn)]

    def is_listed(self, d, program, start, given, chosen, making):
        """Whether the list of its steps is a run over this input by these words, and over no other input and no
        others."""
        run, begun = making.run, d("alpha_imprecise.Run.imprecise_start")(start)
        runs_over, draws = d("alpha_imprecise.Run.RunsOver"), d("alpha_imprecise.Chosen.Draws")
        others = run._replace(units=run.units + 1), run._replace(left=run.left + (1,))
        found = [runs_over(program, start, given, one) for one in (run, *others)]
        found += [draws(program, begun, 0, chosen, run.steps, left) for left in (making.words, making.words + (0,))]
        return found == [True, False, False, True, False]
