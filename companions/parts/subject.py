"""What is judged: an image, a module, or a source, with its words, the program's verdict, and where each word comes
from."""
import re

from . import broken, files, fitting, image, module, places, program, shadows, shown, table

# The name of a /V word, as a statement begins with it.
OVERFLOW = re.compile(r"\b((?:add|sub|mul|neg)[lq])/?v(?=[ \t])")


class Subject:
    """Of a file: `whole` has its words as an image, `code` their instructions, `lines` a line for each word, `verdict`
    the program's."""

    def __init__(self, path, whole, verdict, lines, known):
        self.path, self.whole, self.verdict, self.lines, self.known = path, whole, verdict, lines, known
        self.code = shadows.Code(whole.words)

    def line(self, address):
        """The line of the word at an address."""
        place = self.whole.place(address)
        return "the end of the code" if place is None else self.lines[place]


def of_file(asked, path, sources, symbols):
    """The subject that a file is. Sources and symbols are those of an image."""
    content = files.read_bytes(path, files.MOST_MODULE)
    if content[:7] == b"ALPHAIM":
        return of_image(asked, path, sources, symbols)
    if sources or symbols:
        raise files.Refused(f"{path}: no image, and --source and --map are for one")
    if content[:7] == b"ALPHAOB":
        return of_module(asked, path, module.module_of(content, path))
    files.read_text(path, files.MOST_SOURCE)
    known = places.Places([path])
    source, = known.sources
    return of_source(asked, path, known) if source.has_entry else of_module_source(asked, path, known, source)


def of_image(asked, path, sources=None, symbols=None, known=None):
    verdict = asked.verdict(path)
    if known is None:
        known = places.Places(sources, symbols)
        known.hold(asked, path)
    return Subject(path, image.read_image(path), verdict, asked.code_lines(path), known)


def of_source(asked, path, known):
    """A source that `asm` takes."""
    with program.Scratch() as scratch:
        made = scratch.file("made.img", b"")
        fitting.refuse(known.sources[0], "asm", asked.call("asm", path, made))
        found = of_image(asked, made, known=known)
    found.path = path
    return found


def of_words(asked, path, words, known):
    """Words that begin where those of the first module of a link do."""
    with program.Scratch() as scratch:
        found = of_image(asked, scratch.file("made.img", broken.image_of(words).spelled()), known=known)
    found.path = path
    return found


def of_module(asked, path, made):
    known = places.Places()
    known.names = places.Names()
    for symbol in made.symbols:
        if symbol.section == module.CODE:
            known.names.add(image.CODE_BASE + symbol.offset, shown.name(symbol.name))
    return of_words(asked, path, made.words, known)


def of_module_source(asked, path, known, source):
    """A source that `module` takes, or refuses for a broken place. Its words are those of a copy without `/V`, in which
    no shadow opens, with `/V` put back. The verdict must be that of `module`, which asks for nothing that a link
    changes."""
    triggers = {source.lines[address] - 1: address for address in source.lines if source.is_trigger(address)}
    lines = [OVERFLOW.sub(r"\1", line, 1) if n in triggers else line for n, line in enumerate(source.text)]
    with program.Scratch() as scratch:
        out = scratch.file("made.mod", b"")
        given = scratch.file("given.as", "\n".join(lines).encode("utf-8", "surrogateescape"))
        fitting.refuse(source, "module", asked.call("module", given, out))
        made = module.read_module(out)
        status, _, notes = asked.call("module", path, out)
    words = list(made.words)
    for address in triggers.values():
        at = (address - source.code_base) // 4
        words[at] |= table.OVERFLOW_BIT[words[at] >> 26]
    found = of_words(asked, path, words, known)
    match = program.BROKEN.search(notes)
    said = (int(match[1], 16), int(match[2], 16), int(match[3])) if match else None
    if status not in (0, 1) or said != found.verdict:
        raise files.Refused(f"{path}: `module` answers status {status}: {notes.strip() or 'no line'}, and `check` of "
                            f"its words otherwise")
    # What a link puts in stands in the source alone.
    for one in made.relocations:
        if one.kind != module.QUAD:
            address = image.CODE_BASE + one.offset // 4 * 4
            found.lines[one.offset // 4] = source.code_of(source.lines[address])
    return found
