"""The definitions that the clauses of data.py reach, as functions of Python, by their names."""
import sys
import threading

from . import data
from .core import is_data
from .natives import NATIVES
from .sources import TOP
from .translate import Translation, key_of

sys.path.append(str(TOP / "bench"))
import reading  # noqa: E402  (behind the path)


def roots():
    """The definitions that the clauses name, and those of answers: (module, name)."""
    found = []
    for crate, function, clause in data.CLAUSES:
        rows, names, modules = reading.clauses(crate, function)
        texts = [text for name, text in rows if name == clause]
        if not texts:
            raise SystemExit(f"data.py: {function} of {crate} has no clause {clause}")
        found += sorted(reading.find(texts[0], names, modules), key=str)
    return [root for root in found if reading.path_of(root[0])] + data.ANSWERS


class Definitions:
    """`definitions("alpha_seq.Step.step_from")` is the function of that definition."""

    def __init__(self, is_watched=False, translation=None):
        self.translation = translation or Translation(is_watched=is_watched)
        for module, name in roots():
            item = self.translation.sources.item(module, name)
            if not is_data(item.of, NATIVES):
                self.translation.add(module, name)
        self.by_name = {key_of(declaration): declaration for declaration in self.translation.functions}

    def __call__(self, name):
        if name not in self.by_name:
            crate, *inner, last = name.split(".")
            self.by_name[name] = self.translation.add(f"Rattle.{crate}.specs.{'.'.join(inner)}", last)
        return self.translation.space[self.translation.functions[self.by_name[name]]]

    def count(self, name):
        """How many arguments a definition's function takes at once."""
        self(name)
        return self.translation.count(self.by_name[name])

    def forget(self):
        """Forgets the values that are remembered for a case alone."""
        for name in data.BY_ROWS | data.BY_CASES:
            function = self(name)
            if hasattr(function, "cache_clear"):
                function.cache_clear()

    def given(self, **values):
        """Hands in the members of domains."""
        self.forget()
        self.translation.space["given"].clear()
        self.translation.space["given"].update(values)


def deeply(function, *arguments):
    """Calls a function with room for deep recursion, and gives what it returns or raises."""
    outcome = []

    def work():
        try:
            outcome.append((function(*arguments), None))
        except BaseException as error:  # It is raised again below.
            outcome.append((None, error))
    sys.setrecursionlimit(200_000)
    threading.stack_size(512 << 20)
    thread = threading.Thread(target=work)
    thread.start()
    thread.join()
    value, error = outcome[0]
    if error is not None:
        raise error
    return value
