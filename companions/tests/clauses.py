"""bench/clauses.py over a small tree: which clauses and edits it must see."""
import os
import shutil
import subprocess
import sys

from .helpers import kept, want

SOURCE = """pub fn half(n: u64) -> u64
    ensures value { result ≡ n / 2 }
    ensures bound { result ≤ n }
{
    n / 2
}
"""
EDIT = "# half: value\nfile: src/lib.rt\nold:     n / 2\nnew:     n / 3\n"
WITHOUT = "low\thalf\tbound\thow large it is\n"


def told(folder, edit=EDIT, without=WITHOUT, source=SOURCE):
    """What the script says of a crate `low` of this source, with one edit and this list of clauses that have none."""
    for path, text in (("crates/low/src/lib.rt", source), ("crates/low/must-fail/turned.edit", edit),
                       ("bench/edits/without.tsv", without)):
        os.makedirs(os.path.join(folder, os.path.dirname(path)), exist_ok=True)
        with open(os.path.join(folder, path), "w", encoding="utf-8") as file:
            file.write(text)
    script = shutil.copy(kept("bench/clauses.py"), os.path.join(folder, "bench"))
    ran = subprocess.run([sys.executable, script], capture_output=True, text=True)
    return ran.returncode, ran.stdout


def test_a_clause_has_an_edit_or_a_reason(folder):
    want(told(folder), (0, "2 public clauses: 1 have one of 1 edits, the others a reason for none\n"), "both")
    want(told(folder, without=""),
         (1, "low, half: bound: no must-fail edit is for it, and bench/edits/without.tsv doesn't say why\n"),
         "no reason")
    more = SOURCE + "\npub fn third(n: u64) -> u64\n    ensures { result ≡ n / 3 }\n{\n    n / 3\n}\n"
    want(told(folder, source=more)[1],
         "low, third: no must-fail edit is for it, and bench/edits/without.tsv doesn't say why\n", "a new function")


def test_an_edit_names_a_clause_that_is_there_and_can_be_applied(folder):
    path = "crates/low/must-fail/turned.edit"
    for edit, wrong in ((EDIT.replace("# half: value\n", ""), f"{path} doesn't say which clause it turns"),
                        (EDIT.replace("value", "values"), f"{path}: low, half: values: there is no such clause"),
                        (EDIT.replace("n / 2", "n / 4"), f"{path}: its file doesn't have once: n / 4")):
        want(wrong in told(folder, edit)[1].splitlines(), True, wrong)


def test_a_reason_that_no_clause_needs_is_seen(folder):
    more = WITHOUT + "low\thalf\tvalue\thow much it is\n"
    want(told(folder, without=more), (1, "bench/edits/without.tsv: no clause needs low, half: value\n"),
         "an edit and a reason")
