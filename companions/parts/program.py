"""Calls of the program."""
import os
import re
import subprocess
import sys
import tempfile

from . import files

BUILT, LOOK = "crates/alpha_tool/out/alpha_tool", ".look/alpha_tool"
NO_IMAGE, CANT_READ = 4, 8
BROKEN = re.compile(r"broken trigger ([0-9a-f]{16}) at ([0-9a-f]{16}) condition C([1-9])\n\Z")
NONE = ("no program is there, and a companion builds none: take bin/alpha of an archive, or among the sources make "
        "one, by `./look trial 1` in a minute, or with all proofs by `./alpha trial 1` in half an hour; --alpha "
        "PROGRAM and ALPHA say another one")


def found(path=None):
    """The path of the program: of that which the user names, else of the one beside the companions. Nothing is
    built."""
    if path is None:
        # The folder as it is named comes first, and then the one that a link to it leads to.
        tops = dict.fromkeys([files.TOP, os.path.dirname(os.path.dirname(os.path.dirname(os.path.realpath(__file__))))])
        path = next(filter(None, map(beside, tops)), None)
        if path is None:
            raise files.Refused(NONE)
        return path
    if not os.access(path, os.X_OK) or os.path.isdir(path):
        raise files.Refused(f"{path}: no program is there; say --alpha PROGRAM, or set the variable ALPHA to its path")
    return of_script(path) if is_script(path) else os.path.abspath(path)


def beside(top):
    """That of an archive, of an installation in PREFIX/lib/bantamtinsel, or of a checkout, by the folder above the
    companions'."""
    places = [os.path.join(top, "bin", "alpha")]
    if os.path.basename(os.path.dirname(top)) in ("lib", "share"):
        places.append(os.path.join(os.path.dirname(os.path.dirname(top)), "bin", "alpha"))
    places.append(os.path.join(top, "alpha"))
    for path in places:
        if is_program(path) and not is_script(path):
            return path
    for script, program in (("alpha", BUILT), ("look", LOOK)):
        if is_program(os.path.join(top, program)):
            return told(os.path.join(top, program), os.path.join(top, script))
    return None


def is_program(path):
    return os.path.isfile(path) and os.access(path, os.X_OK)


def is_script(path):
    """Whether it is ./alpha or ./look of a checkout, which make their program where it is missing or old."""
    with files.open_file(path) as file:
        return (file.read(2) == b"#!"
                and os.path.exists(os.path.join(os.path.dirname(os.path.realpath(path)), "tools", "start.sh")))


def of_script(path):
    """The program that such a script runs, without the script, which compares the sources at each call."""
    top, name = os.path.split(os.path.realpath(path))
    program = os.path.join(top, LOOK if name == "look" else BUILT)
    if name == "alpha" and is_program(os.path.join(top, "bin", "alpha")):
        return os.path.join(top, "bin", "alpha")
    if not is_program(program):
        raise files.Refused(f"{path}: {NONE}")
    return told(program, os.path.join(top, name))


def told(program, script):
    """A program of a checkout. A line says where it isn't proved, or was made of other sources than are there now."""
    kinds = ["is compiled and not proved"] if program.endswith(LOOK) else []
    if os.access(script, os.X_OK):
        said = subprocess.run([script, "--version"], stdin=subprocess.DEVNULL, capture_output=True, check=False).stdout
        kinds += ["was made of other sources than are here now"] if b"the sources are others" in said else []
    if kinds:
        print(f"{os.path.basename(sys.argv[0])}: asks {os.path.relpath(program)}, which {' and '.join(kinds)}",
              file=sys.stderr, flush=True)
    return program


class Program:
    """The program at a path, or the one beside the companions."""

    def __init__(self, path=None):
        self.path = found(path)

    def call(self, *words, given=b""):
        """The status, the output and the notes of a call."""
        try:
            done = subprocess.run([self.path, *words], input=given, capture_output=True, check=False)
        except OSError as error:
            raise files.Refused(f"{self.path}: it doesn't run here: {error.strerror}") from error
        return done.returncode, done.stdout, done.stderr.decode("utf-8", "replace")

    def verdict(self, path):
        """None where the image is accepted, else (address of the trigger, address of the place, number of the
        condition)."""
        status, out, notes = self.call("check", path)
        if status == 0 and out == b"accepted\n":
            return None
        match = BROKEN.search(notes)
        if status == 1 and match:
            return int(match[1], 16), int(match[2], 16), int(match[3])
        raise unexpected(path, status, notes)

    def listing(self, path):
        """The lines of the listing."""
        status, out, notes = self.call("dis", path)
        if status != 0:
            raise unexpected(path, status, notes)
        return out.decode("ascii").splitlines()

    def code_lines(self, path):
        """The canonical line of each code word."""
        lines = self.listing(path)
        start = lines.index(".code") + 1
        end = next((n for n in range(start, len(lines)) if lines[n].startswith((".data", ".segment"))), len(lines))
        return lines[start:end]


def unexpected(path, status, notes):
    """The refusal of a file of which the program answers something else than is asked for."""
    if status == CANT_READ:
        files.read_bytes(path)
    cause = "no image: " if status == NO_IMAGE else ""
    return files.Refused(f"{path}: {cause}the program answers status {status}: {notes.strip() or 'no line'}")


class Scratch:
    """A folder for copies of images, which goes away at the end."""

    def __enter__(self):
        self.folder = tempfile.TemporaryDirectory()
        return self

    def __exit__(self, *_):
        self.folder.cleanup()

    def file(self, name, content):
        path = os.path.join(self.folder.name, name)
        with open(path, "wb") as file:
            file.write(content)
        return path
