"""cases.tsv: the small cases, one a line, with their bytes as text."""
import base64
import os
import zlib
from collections import namedtuple

HERE = os.path.dirname(os.path.abspath(__file__))
PATH = os.path.join(HERE, "cases.tsv")
# `given` is the input, in pieces; of an image its bytes. `journal` is of late and refuse alone, `choices` of late.
Case = namedtuple("Case", "file kind image completion steps answer about given choices journal output")
# The place of the answer in a line, and how many characters of it are packed.
ANSWER, LONG = 5, 10_000
HEAD = """# The small cases of the suite, one a line, with tabs between the columns; - stands for nothing. \
conformance/README.md says how
# they are run. The columns:
#
# name        the image, a point, and the case; of bad images and those at the edge of a rule `images`
# kind        run, image, late or refuse, as below
# image       the image in images/, or - where the case brings its own
# completion  wrap, saturate or stop
# steps       how many steps it has at most
# answer      what is told: of run, image and late the notes without barriers, with `; ` between; of refuse the line
# about       what the case shows
# given       the input, or the image; where + stands the next piece of it comes late
# choices     the words by which the traps come late
# journal     the journal
# output      what the run puts
#
# Bytes are hexadecimal digits, or behind a z base64 of what zlib has packed. So is a very long answer.
#
# run         the image is run over the input
# image       its bytes are no image, by the line of the answer, or they are one, which is run over an empty input
# late        a run with late traps: its journal must be followed, and its choices must give its notes and its output
# refuse      a journal that must be refused on the image
"""


def text_of(content):
    """Bytes as text, the shorter way."""
    return min(content.hex(), packed_text(content), key=len) if content else "-"


def packed_text(content):
    return "z" + base64.urlsafe_b64encode(zlib.compress(content, 9)).decode("ascii")


def bytes_of(text):
    if text == "-":
        return b""
    return zlib.decompress(base64.urlsafe_b64decode(text[1:])) if text.startswith("z") else bytes.fromhex(text)


def line_of(case):
    """A case as its line."""
    *told, given, choices, journal, output = case
    told[ANSWER] = told[ANSWER] if len(told[ANSWER]) < LONG else packed_text(told[ANSWER].encode("ascii"))
    data = ["+".join(map(text_of, given)), *map(text_of, (choices, journal, output))]
    return "\t".join([*map(str, told), *data])


def case_of(line):
    *told, given, choices, journal, output = line.rstrip("\n").split("\t")
    told[ANSWER] = bytes_of(told[ANSWER]).decode("ascii") if told[ANSWER].startswith("z") else told[ANSWER]
    return Case(*told, [bytes_of(piece) for piece in given.split("+")], *map(bytes_of, (choices, journal, output)))


def cases():
    """The cases of the table."""
    with open(PATH, encoding="ascii") as file:
        return [case_of(line) for line in file if not line.startswith("#")]
