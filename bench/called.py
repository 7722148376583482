"""Calls of the program that are held to their whole answers, and told with their processor time and the most memory
that they had. The system tells both for the child of a small process of Python, whose own 10 MB or so are the least
that it tells.
"""
import os
import subprocess
import sys

from measure import Folder, read

MEASURE = """
import os, sys
_, status, used = os.wait4(os.posix_spawn(sys.argv[2], sys.argv[2:], os.environ), 0)
with open(sys.argv[1], "w") as file:
    print(os.waitstatus_to_exitcode(status), used.ru_utime + used.ru_stime, used.ru_maxrss, file=file)
"""


class Calls(Folder):
    """Calls of the program on files of a folder, and how many answered otherwise than they should."""

    def __init__(self, program, folder):
        super().__init__(folder)
        self.program, self.count, self.wrong = os.path.abspath(program), 0, 0

    def read(self, name):
        return read(self.path(name))

    def assemble(self, name, text):
        """Makes the image of a source, without telling it."""
        kept = self.path(name)
        subprocess.run([self.program, "asm", self.keep("text", text.encode()), kept], check=True)
        return kept

    def call(self, what, *words, status=0, out=b"", notes="", given=b"", keeps=None):
        """Makes a call, and tells how it went: `keeps` is what OUT, the file `kept`, must have then, None where it
        isn't made."""
        if os.path.exists(self.path("kept")):
            os.remove(self.path("kept"))
        with open(self.path("out"), "wb") as to, open(self.path("notes"),
                                                      "wb") as log, open(self.keep("given", given)) as source:
            measuring = [sys.executable, "-ISc", MEASURE, self.path("took"), self.program, *words]
            subprocess.run(measuring, stdin=source, stdout=to, stderr=log, check=True)
        ended, seconds, memory = self.read("took").split()
        parts = [("status", int(ended), status), ("output", self.read("out"), out),
                 ("notes", self.read("notes"), notes.encode()),
                 ("file", self.read("kept") if os.path.exists(self.path("kept")) else None, keeps)]
        wrong = [told(part, *both) for part, *both in parts if both[0] != both[1]]
        self.count, self.wrong = self.count + 1, self.wrong + bool(wrong)
        print(f"{what}: {float(seconds):.2f} s, {int(memory) * 1024 / 1e6:.0f} MB{''.join(wrong)}", flush=True)

    def refuses(self, what, *words, status, notes, **rest):
        self.call(f"{what}, refused", *words, status=status, notes=notes + "\n", **rest)


def told(part, got, wanted):
    if isinstance(got, bytes) and isinstance(wanted, bytes):
        both = min(len(got), len(wanted))
        at = next((n for n in range(0, both, 64) if got[n:n + 64] != wanted[n:n + 64]), both)
        return (f"\n  {part}: {len(got)} bytes for {len(wanted)}, from {at} on {got[at:at + 64]!r} for "
                f"{wanted[at:at + 64]!r}")
    return f"\n  {part}: {repr(got)[:64]} for {repr(wanted)[:64]}"
