"""The manual pages: of the program, out of docs/commands.md, and of each companion, out of what its source says of it,
since what Python makes of `--help` differs from one version to the next."""
import ast
import os
import re
import sys

import usage

sys.path.insert(0, os.path.join(usage.TOP, "companions"))
from parts import pages  # noqa: E402  (the line above must come first)

# How manual pages call what sections of the page are about.
CALLED = {"The words": "COMMANDS AND OPTIONS", "The statuses": "EXIT STATUS", "What to do": "DIAGNOSTICS"}
HEAD = """\
.SH NAME
alpha \\- check, assemble and run code of the Alpha whose overflow traps come late
.SH SYNOPSIS
.B alpha
.I COMMAND
[\\fIOPTIONS\\fR] \\fIFILE\\fR...
.SH DESCRIPTION
"""


def escaped(text):
    """A line as roff writes it word for word."""
    return re.sub(r"^([.'])", r"\\&\1", text.replace("\\", "\\e").replace("-", "\\-"))


def told(text):
    """A paragraph: code spans are bold, links are the pages that they lead to."""
    spans = re.split(r"`([^`]+)`", pages.plain(text, "commands.md"))
    return "".join(f"\\fB{escaped(it)}\\fR" if at % 2 else escaped(it) for at, it in enumerate(spans))


def rows(table):
    """The rows of a table, each below its first cell; of others with more than two columns the head says what stands
    where."""
    for first, *others in table.rows:
        yield f".TP\n{told(first)}"
        named = zip(table.header[1:], others)
        texts = [told(others[0])] + [f"{told(name)}: {told(text)}" for name, text in list(named)[1:] if text]
        yield "\n.br\n".join(texts)


def body(sections, heads):
    for section in sections:
        if section.heading and section.heading in heads:
            yield f".SH {CALLED.get(section.heading, section.heading.upper())}"
        elif section.heading:
            yield f".SS {told(section.heading)}"
        for block in section.blocks:
            if isinstance(block, pages.Table):
                yield from rows(block)
                yield ".PP"
            elif isinstance(block, pages.Code):
                yield "\n".join([".PP", ".nf", ".RS", *map(escaped, block.lines), ".RE", ".fi", ".PP"])
            elif block.text.startswith("- "):
                yield f".IP \\(bu 2\n{told(block.text.removeprefix('- '))}"
            else:
                yield f".PP\n{told(block.text)}"


def head(name, version):
    return f'.TH {name.upper()} 1 "" "Bantamtinsel {version}"\n'


def of_program(version):
    """alpha.1, whose sections are those of docs/commands.md."""
    with open(os.path.join(usage.TOP, usage.PAGE), encoding="utf-8") as page:
        heads = re.findall(r"^## (.*)$", page.read(), re.M)
    before, title, *others = pages.sections("commands.md")
    lines = body([before._replace(blocks=before.blocks + title.blocks), *others], heads)
    return head("alpha", version) + HEAD + "\n".join(lines) + "\n"


def of_companion(name, version):
    """alpha-NAME.1."""
    with open(os.path.join(usage.TOP, "companions", name), encoding="utf-8") as source:
        tree = ast.parse(source.read())
    texts = {ast.unparse(it.targets[0]): it.value.value for it in tree.body
             if isinstance(it, ast.Assign) and isinstance(it.value, ast.Constant)}
    about = ast.get_docstring(tree).partition(": ")[2].rstrip(".")
    lines = "\n".join(map(escaped, [*texts["TEXT"].splitlines(), "", *texts["EPILOG"].splitlines()]))
    return f"""{head(f"alpha-{name}", version)}.SH NAME
alpha\\-{name} \\- {escaped(about)}
.SH SYNOPSIS
.B alpha\\-{name}
[\\fIOPTIONS\\fR] ...
.SH DESCRIPTION
.nf
{lines}
.fi
.SH OPTIONS
.B alpha\\-{name} \\-\\-help
tells all of them.
.SH SEE ALSO
.BR alpha (1)
"""
