"""What image2elf adds to an image under Linux, by which elf2image knows such a file, and takes it off again."""
import struct

from . import image, linked, stub

START, HANDLER_STACK, HANDLER_BYTES = 0x50000000, 0x50010000, 0x8000
# How the words that run first end: the entry's two words, one for $30, 29 registers that are cleared, and the jump.
ENTRY, LAST = 33, 32
ADDED = {".start", ".handler.stack", ".stack"}


def stub_of(entry, has_handler):
    """The bytes that stand at START, and the address in them where a program begins."""
    return stub.stub(START, entry, (HANDLER_STACK, HANDLER_BYTES) if has_handler else None)


def entry_of(whole):
    """The entry of the image of which image2elf made this file, or None where it made none of it. Its first words must
    be just those that image2elf writes."""
    sections = {section.name: section for section in whole.sections}
    start = sections.get(".start")
    if (start is None or start.address != START or start.kind == linked.NOBITS or start.size < 4 * ENTRY
        or start.size % 4):
        return None
    high, low = (signed(word) for word in struct.unpack("<2I", start.content[-4 * ENTRY:-4 * (ENTRY - 2)]))
    entry = (high << 16) + low
    if not 0 <= entry < image.END or stub_of(entry, ".handler.stack" in sections) != (start.content, whole.entry):
        return None
    return entry


def signed(word):
    """The lower half of a word, as `lda` and `ldah` add it."""
    return (word & 0xFFFF ^ 0x8000) - 0x8000


def parts_of(whole, stack):
    """The sections of the image alone, its segments of data, and the bytes of its stack: those of the file's own part,
    or `stack` where it is a part of the last segment's pages."""
    code = [section for section in whole.sections if section.flags & linked.EXEC and section.name != ".start"]
    segments = []
    for section in whole.sections:
        if section.flags & linked.EXEC or section.name in ADDED:
            stack = section.size if section.name == ".stack" else stack
        elif section.kind == linked.NOBITS and section.name.endswith(".zero") and segments:
            segments[-1].zeroed = section.size
        else:
            segments.append(image.Segment(section.address, section.content, section.size - len(section.content)))
    if segments and segments[-1].base + len(segments[-1].data) + segments[-1].zeroed == image.END:
        segments[-1].zeroed = max(0, segments[-1].zeroed - stack)
    return code, segments, stack
