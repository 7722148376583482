"""The pages of docs/: their sections, each with its texts and tables."""
import os
import re
from collections import namedtuple

from . import files

# A block is a text (one paragraph, or one item of a list), the lines of a block of code, or a table.
Text = namedtuple("Text", "text")
Code = namedtuple("Code", "lines")
Table = namedtuple("Table", "header rows")
Section = namedtuple("Section", "page heading blocks")

HEADING = re.compile(r"#+ (.*)")
LINK = re.compile(r"\[([^]]*)\]\(([^)]*)\)")


def sections(name):
    """The sections of a page of docs/, in their order."""
    text = files.read_text(os.path.join(files.TOP, "docs", name))
    found, lines = [Section(name, "", [])], text.split("\n")
    at = 0
    while at < len(lines):
        line = lines[at]
        if line.startswith("```"):
            end = next(n for n in range(at + 1, len(lines)) if lines[n].startswith("```"))
            found[-1].blocks.append(Code(lines[at + 1:end]))
            at = end
        elif match := HEADING.fullmatch(line):
            found.append(Section(name, match[1], []))
        elif line.startswith("|"):
            end = next((n for n in range(at, len(lines)) if not lines[n].startswith("|")), len(lines))
            header, _, *rows = map(cells, lines[at:end])
            found[-1].blocks.append(Table(header, rows))
            at = end - 1
        elif line.strip():
            found[-1].blocks.append(Text(line.strip()))
        at += 1
    return found


def cells(line):
    return [cell.strip() for cell in line.strip().strip("|").split("|")]


def section(name, beginning):
    """The section of a page whose heading begins so."""
    for one in sections(name):
        if one.heading.startswith(beginning):
            return one
    raise files.Refused(f"docs/{name} has no section {beginning}")


def plain(text, page):
    """A text without marks of emphasis, and with its links as the pages that they lead to."""
    def told(match):
        name = os.path.normpath(os.path.join("docs", match[2].partition("#")[0] or page))
        if match[1] == os.path.basename(name):
            return name
        return match[1] if name == f"docs/{page}" else f"{match[1]} ({name})"
    return LINK.sub(told, text).replace("**", "").replace("this page", f"docs/{page}")
