"""What all companions do alike: errors, files that are read and kept whole, and the arguments that they share."""
import argparse
import os
import stat
import sys
import tempfile

from . import shown

TOP = os.path.dirname(os.path.dirname(os.path.dirname(os.path.abspath(__file__))))

# What files are, by their first bytes, that are often given where a text is wanted.
NO_TEXT = {b"\x7fELF": "no text: an ELF file, which companions/elf2image reads where it is linked",
           b"ALPHAIM": "no text: an image",
           b"ALPHAOB": "no text: a module", b"ALPHAJR": "no text: a journal"}
# The most bytes that the program takes of each kind of file (docs/commands.md); of a compiler's text, and of a table or
# a section of a linked file, as many are read.
MOST_IMAGE, MOST_SOURCE, MOST_MODULE = 18_874_368, 16_777_216, 20_971_520
MOST_JOURNAL, MOST_TEXT = 33_554_432, 33_554_432
MOST_PART = 134_217_728

class Refused(Exception):
    """Input that a companion can't take. It has one line or several."""


def open_file(path):
    """The file of a path, open for reading by bytes."""
    try:
        if os.path.isdir(path):
            raise Refused(f"{path}: Is a directory")
        return open(path, "rb")
    except (OSError, ValueError) as error:
        raise Refused(f"{path}: {getattr(error, 'strerror', None) or error}") from error


def read_bytes(path, most=MOST_TEXT):
    """All bytes of a file. One of more than `most` is refused, and no more than that is read of it: it may have holes,
    or no end."""
    with open_file(path) as file:
        try:
            size = os.fstat(file.fileno()).st_size
            content = file.read(most + 1) if size <= most else b""
        except OSError as error:
            raise Refused(f"{path}: {error.strerror}") from error
    if max(size, len(content)) > most:
        raise Refused(f"{path}: more than {most} bytes, the most that are read")
    return content


class Parts:
    """A regular file, or a window of one, of which parts are read. Each part is held against the size before memory is
    taken."""

    def __init__(self, path, file=None, start=0, size=None):
        self.path, self.file, self.start = path, file or open_file(path), start
        kind = os.fstat(self.file.fileno())
        if not stat.S_ISREG(kind.st_mode):
            raise Refused(f"{path}: no regular file, of which parts can be read")
        self.size = kind.st_size - start if size is None else size

    def part(self, offset, length):
        """Bytes of the file, all of them; ValueError where it hasn't so many."""
        if not 0 <= offset <= offset + length <= self.size:
            raise ValueError(f"{length} bytes at {offset}, of {self.size}")
        if length > MOST_PART:
            raise Refused(f"{self.path}: a table or a section of {length} bytes: at most {MOST_PART} are read")
        content = os.pread(self.file.fileno(), length, self.start + offset)
        if len(content) != length:
            raise ValueError("the file is shorter now")
        return content

    def window(self, path, offset, size):
        """A part as a file of its own, by another path."""
        return Parts(path, self.file, self.start + offset, size)


def read_text(path, most=MOST_TEXT):
    """The text of a file. Bytes that are no UTF-8 stay as they are when it is written again; one with a byte of 0 is no
    text."""
    content = read_bytes(path, most)
    if b"\0" in content:
        kinds = (kind for front, kind in NO_TEXT.items() if content.startswith(front))
        raise Refused(f"{path}: {next(kinds, 'no text')}")
    return content.decode("utf-8", "surrogateescape")


def keep(path, content):
    """Makes the file anew: all of it, or it is as it was."""
    keep_all([(path, content)])


def keep_all(contents):
    """Makes files anew. They are all written under other names first, and then renamed."""
    mask = os.umask(0)
    os.umask(mask)
    written = []
    try:
        for path, content in contents:
            path = os.path.realpath(path)
            if os.path.exists(path) and not os.path.isfile(path):
                raise Refused(f"{path}: is no file that can be replaced")
            with tempfile.NamedTemporaryFile(dir=os.path.dirname(path), prefix=".keep-", delete=False) as file:
                written.append((file.name, path))
                file.write(content if isinstance(content, bytes) else content.encode("utf-8", "surrogateescape"))
        while written:
            temporary, path = written[0]
            os.chmod(temporary, 0o666 & ~mask)
            os.replace(temporary, path)
            del written[0]
    except OSError as error:
        raise Refused(f"{path}: {error.strerror}") from error
    finally:
        for temporary, _ in written:
            os.unlink(temporary)


def put(path, text):
    """Keeps a text as the file of that path, or writes it to standard output where there is none."""
    if path is None:
        sys.stdout.buffer.write(text.encode("utf-8", "surrogateescape"))
        sys.stdout.buffer.flush()
    else:
        keep(path, text)


def arguments(name, text, epilog=None):
    return argparse.ArgumentParser(prog=name, description=text, epilog=epilog,
                                   formatter_class=argparse.RawDescriptionHelpFormatter)


def with_program(parser):
    parser.add_argument("--alpha", metavar="PROGRAM", default=os.environ.get("ALPHA") or None,
                        help="the program to ask; else the variable ALPHA says which, else it is the one beside the "
                             "companions")
    return parser


def ends(main):
    """Runs a companion. The status is what it answers, 1 where it refuses its input, and 2 of bad arguments."""
    sys.stdout, sys.stderr = shown.Stream(sys.stdout), shown.Stream(sys.stderr)
    try:
        sys.exit(main())
    except Refused as error:
        for line in str(error).split("\n"):
            print(f"{os.path.basename(sys.argv[0])}: {line}", file=sys.stderr)
        sys.exit(1)
    except BrokenPipeError:
        os.dup2(os.open(os.devnull, os.O_WRONLY), sys.stdout.fileno())
        sys.exit(1)
    except KeyboardInterrupt:
        sys.exit(130)
