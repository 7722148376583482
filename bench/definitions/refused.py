"""Forms that the translator doesn't know: each must be refused with its file and line, and none be passed over."""
import os
import pathlib
import tempfile

from .natives import NATIVES
from .reader import Unknown
from .sources import Missing, Sources
from .translate import Translation

HEAD = "use Rattle.std.specs.Prelude.{ℕ, zero, suc, ◌<◌, ◌≡◌, ◌+◌, List, Bool, true, false}\n\n"
# What a file says of `f` from line 3 on, the line that must be named, and words of the refusal.
FORMS = [
    ("abbrev pub f : ℕ → ℕ\nf n = elim n [ zero ↦ n ]\n", 4, "a form that isn't known"),
    ("abbrev pub f : ℕ → ℕ\nf n = do\n  n\n", 4, "a form that isn't known"),
    ("abbrev pub f : ℕ → Type 0\nf n = (m : ℕ) → n < m → m ≡ n\n", 3, "nothing bounds f.m"),
    ("abbrev pub f : ℕ → Type 0\nf n = (m : ℕ) × (m + m ≡ n)\n", 3, "nothing bounds f.m"),
    ("abbrev pub f : ℕ → ℕ\nf n = absent n\n", 4, "there is no absent"),
    ("abbrev pub f : ℕ → ℕ\n", 3, "f has no equation"),
    ("abbrev pub f : ℕ → ℕ\nf n = n +\n", 4, "`more` isn't there"),
    ("pub data f (n : ℕ) : Type 0 where\n  F : n ≡ 0 → f n\n", 3, "a relation by its cases"),
    ("abbrev pub f : ℕ → ℕ → ℕ\nf n = λ m. n\nf n m = m\n", 5, "an equation with another number of patterns"),
    ("abbrev pub f : ℕ → ℕ\ng n = n\n", 4, "an equation of another name than f"),
]


class Given(Sources):
    """The sources, and beside them one file as the module Given."""

    def __init__(self, path):
        super().__init__(NATIVES)
        self.path = pathlib.Path(path)

    def path_of(self, module):
        return self.path if module == "Given" else super().path_of(module)


class Refused:
    name, about = "refusals", "forms that aren't known, refused with their file and line"
    counts = {"sample": 1, "whole": 1}
    is_quick = True

    def cases(self, chooser, count, asked):
        yield from range(len(FORMS))

    def difference(self, d, case):
        text, line, words = FORMS[case]
        with tempfile.TemporaryDirectory() as folder:
            path = os.path.join(folder, "Given.antt")
            with open(path, "w", encoding="utf-8") as file:
                file.write(HEAD + text)
            said = self.refusal(path)
        return "" if f"{path}:{line}: " in said and words in said else f"{text!r}: {said or 'translated'}"

    def refusal(self, path):
        translation = Translation(Given(path))
        try:
            declaration = translation.add("Given", "f")
        except (Unknown, Missing) as error:
            return str(error)
        return translation.refused.get(declaration, "")
