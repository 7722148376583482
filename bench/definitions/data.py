"""What the runner says of definitions by their names: where it begins, and what no text bounds."""
from collections import namedtuple

# The clauses whose definitions are run: crate, function, clause. The first READ of them are those of the reading order.
READ = 3
CLAUSES = [("alpha_restart", "laws_of_restarts", "accepted"), ("alpha_cmd", "alpha_top", "checked"),
           ("alpha_cmd", "alpha_top", "ran"), ("alpha_cmd", "alpha_top", "alike"),
           ("alpha_cmd", "alpha_top", "restarts"), ("alpha_cmd", "alpha_top", "ran_told"),
           ("alpha_cmd", "alpha_top", "listed"), ("alpha_cmd", "alpha_top", "runs")]
# Definitions of answers, which are run beside those.
ANSWERS = [("Rattle.alpha_cmd.specs.Commands.Imprecise", "answer_imprecise"),
           ("Rattle.alpha_cmd.specs.Commands.Imprecise", "run_by")]

# The domain of a variable, by DEFINITION.VARIABLE: an expression over variables in braces, and `given`, by which the
# runner hands in what is tried.
DOMAINS = {
    # No place past the end of the code holds a word, and the last that a condition speaks of is the end itself.
    "IsAccepted.trigger": "range(len({code}) + 1)", "IsAccepted.at": "range(len({code}) + 2)",
    "IsLeastBroken.trigger": "range(len({code}) + 1)", "IsLeastBroken.at": "range(len({code}) + 2)",
    # Any element: it is never looked at, since the places are those of elements.
    "AllPairs.d": "{xs}[:1]", "All.d": "{xs}[:1]",
    # What is said of all lists of steps and of every image is tried on those that are handed in.
    "RestartsFrom.steps": "given['steps']",
    "ReadsImage.image": "given['images']", "IsReadWhole.pieces": "given['pieces']",
    "RanTold.image": "given['images']", "Alike.image": "given['images']", "EndsWhere.image": "given['images']",
    "ListsFile.image": "given['images']", "EndsWherePlan.plan": "given['plans']",
    "EndsAsRun.image": "given['images']",
    # An image with its journal, and what the shelf replied behind the words of a run with one.
    "EndsWhereReplay.image": "given['images']", "EndsWhereReplay.listed": "given['journals']",
    "IsReplayRead.middle": "data.fronts({new}, len({old}))", "AsksToKeep.journal": "given['journals']",
    "EndsWhereRecord.plan": "given['plans']", "EndsWhereRecord.middle": "data.fronts({s}.history, len({s}.past))",
    "EndsWhereRecord.replies": "data.rests({s}.history, len({s}.past))",
    # The file is one of the words.
    "Ran.file": "{words}", "Alike.file": "{words}", "Checked.file": "{words}", "Restarts.file": "{words}",
    "RanTold.file": "{words}", "Listed.file": "{words}",
    "Alike.options": "given['options']", "HaveWords.bytes": "given['file_bytes']",
    "IsRunEnd.end": "data.ends({status})", "RunByReads.events": "given['events']",
    # An image with its words, a run of the imprecise machine, and what comes behind the words that it draws.
    "ReadsPlan.plan": "given['plans']", "ReadsWords.bytes": "given['file_bytes']",
    "IsPlanRead.middle": "data.fronts({new}, len({old}))", "MadeByReads.steps": "given['late']",
    "MadeByReads.drawn": "given['drawn']", "MadeByReads.coming": "((), (5, 1))",
    "IsEndStatus.end": "data.ends({status})", "IsEndStatus.lost": "data.lost({status})",
    "IsEndStatus.n": "data.drawn({status})",
    # An image with its journal, a run that this may list, and where the run by words that are told stops.
    "ReplaysFiles.image": "given['images']", "ReplaysFiles.listed": "given['journals']",
    "ReplaysFiles.middle": "data.fronts({s}.history, len({s}.past))", "IsRun.run": "given['played']",
    "ReadsAndKeeps.plan": "given['plans']", "ReadsAndKeeps.journal": "given['journals']",
    "ReadsAndKeeps.middle": "data.fronts({s}.history, len({s}.past))",
    "RecordedByReads.steps": "given['late']", "RecordedByReads.drawn": "given['drawn']",
    "RecordedByReads.coming": "((), (5, 1))", "IsRecorded.place": "given['places']",
    "IsJournaled.steps": "(len({to}.run.steps), len({to}.run.steps) + 1)", "IsTranscript.setting": "given['settings']",
    # The replies to some calls stand behind those before them: they are a front of what is new there.
    "IsRead.takes": "data.fronts({new}[len({old}):])", "FailsToRead.takes": "data.fronts({new}[len({old}):])",
    "HasGiven.takes": "data.fronts({new}[len({old}):])", "AnswersEach.mid": "data.fronts({new}, len({old}))",
    # How many bytes the last call was asked for.
    "EndsRead.n": "[reply[1] for reply in {new}[-1:]]", "FailsToRead.asked": "[reply[1] for reply in {new}[-1:]]",
    # Told files are compared by these names.
    "KeepsFiles.name": "given['names']", "KeepsOtherFiles.other": "given['names']",
}

# What isn't translated, and why: nothing that the clauses reach. What is reached by these alone isn't counted.
NAMED = {}

# Functions whose values are remembered by their arguments: as long as nothing changes; and for one case, as they go by
# what is handed in, or are large. Those behind them go by the number below, row by row.
REMEMBERED = {"alpha_table.Words.class_in", "alpha_request.Asked.asked", "rand_pcg.Pcg.pcg64"}
BY_CASES = {"alpha_image.Parts.image_spelling", "alpha_image.Parts.IsImage", "alpha_shadow.Broken.IsAccepted",
            "alpha_seq.Start.start", "alpha_imprecise.Step.imprecise_step",
            "alpha_imprecise.Restart.IsRestartable", "alpha_replay.Journaled.stops_at"}
BY_ROWS = {"alpha_seq.Run.after"}


def fronts(items, least=0):
    """The fronts of a list that have so many elements or more."""
    return (items[:end] for end in range(least, len(items) + 1))


Trap = namedtuple("Trap", "mask pc")


def rests(items, least=0):
    """What stands behind the fronts of a list that have so many elements or more."""
    return (items[begin:] for begin in range(least, len(items) + 1))


class Ahead:
    """Words that lie ahead, by their numbers, made one after another by the function `next_word`; the same as others
    whose first ones are the same."""

    FIRST = 12

    def __init__(self, next_word):
        self.next_word, self.made = next_word, []

    def first(self, count):
        """The first words, so many."""
        while len(self.made) < count:
            self.made.append(self.next_word())
        return tuple(self.made[:count])

    def __call__(self, number):
        return self.first(number + 1)[number] if number >= len(self.made) else self.made[number]

    def __eq__(self, other):
        return all(self(number) == other(number) for number in range(self.FIRST))

    __hash__ = None


def lost(status):
    """The lost traps of which one has this status, if that of a run has it."""
    return ("None",), *(("Some", Trap(trap.mask, trap.trap_pc)) for trap in status[1:] if status[0] == "Lost")


def drawn(status):
    """The numbers of words of which one has this status."""
    return (0, *(number for number in status[1:] if status[0] == "Done"))


def ends(status):
    """The ends of which one has this status, if a run's end has it: none, an exit, and the one that it names."""
    return ("None",), ("Some", ("Exit", 0)), *(("Some", end) for end in status[1:] if status[0] == "Stopped")
