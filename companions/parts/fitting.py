"""Whether an image was made of some sources: its words and bytes against those that the program makes of them."""
from collections import namedtuple

from . import files, image, module, program

# What is made of a source. `words` has pairs of a word and those of its bits that a link leaves as they are, `data`
# pairs of a byte and whether a link leaves it; of an image with a level, `zeroed` has the sizes of its segments
# instead.
Made = namedtuple("Made", "words data zeroed")
OF_LINK = {module.BRANCH: 0xFFE00000, module.HIGH: 0xFFFF0000, module.LOW: 0xFFFF0000}


def hold(asked, path, sources):
    """Refuses sources of which the image of the path wasn't made. They are laid out, several as the modules of a
    link."""
    given = image.read_image(path)
    is_one = len(sources) == 1
    made = [assembled(asked, one) if is_one and one.has_entry else of_module(asked, one) for one in sources]
    advice = ("is it the source of that image?" if is_one
              else "are these the sources of its modules, in the order of the link?")
    count = sum(len(one.words) for one in made)
    if count != len(given.words):
        raise files.Refused(f"{path} has {len(given.words)} code words, and {told(sources)} {count}: {advice}" +
                            (" An image that was linked needs --source for each module" if is_one else ""))
    if given.code_base != sources[0].code_base:
        raise files.Refused(f"{path}: the code begins at {given.code_base:#x}, by {told(sources)} at "
                            f"{sources[0].code_base:#x}: {advice}")
    for source, one in zip(sources, made):
        hold_words(path, given, source, one, advice)
    bases = [source.begin for source in sources]
    hold_data(path, given, bases, made, f"{told(sources)}: {advice}")


def told(sources):
    return " and ".join(source.path for source in sources)


def hold_words(path, given, source, made, advice):
    if len(made.words) != len(source.lines):
        raise files.Refused(f"{source.path}: the program makes {len(made.words)} words of it, and it is laid out with "
                            f"{len(source.lines)}")
    first = given.place(source.code_base) if made.words else 0
    for place, (word, kept) in enumerate(made.words):
        there = given.words[first + place]
        if (there ^ word) & kept:
            address = given.address(first + place)
            raise files.Refused(f"{source.path}:{source.lines[address]}: this line makes {word:08x} at {address:016x}, "
                                f"where "
                                f"{path} has {there:08x}: {advice}")


def hold_data(path, given, bases, made, why):
    """Of an image with a level the sizes alone are looked at: its segments have their bases from the source."""
    if given.level:
        there = [(segment.base, len(segment.data), segment.zeroed) for segment in given.segments]
        if made[0].zeroed != there:
            raise files.Refused(f"{path} has the segments {there} (base, bytes, zeroed bytes), and {made[0].zeroed} "
                                f"are made of {why}")
        return
    segment, = given.segments
    ends = [(base + len(one.data), one.zeroed) for base, one in zip(bases, made)]
    if segment.base != bases[0] or (segment.base + len(segment.data), segment.zeroed) != ends[-1]:
        raise files.Refused(f"{path} has {len(segment.data)} data bytes from {segment.base:#x} on, and others are made "
                            f"of {why}")
    for base, one in zip(bases, made):
        at = base - segment.base
        for offset, (byte, kept) in enumerate(one.data):
            if kept and segment.data[at + offset] != byte:
                raise files.Refused(f"{path} has another byte at {base + offset:016x} than is made of {why}")


def assembled(asked, source):
    """What `asm` makes of a source."""
    with program.Scratch() as scratch:
        out = scratch.file("made.img", b"")
        refuse(source, "asm", asked.call("asm", source.path, out))
        made = image.read_image(out)
    words = [(word, 0xFFFFFFFF) for word in made.words]
    if made.level:
        return Made(words, [], [(one.base, len(one.data), one.zeroed) for one in made.segments])
    segment, = made.segments
    return Made(words, [(byte, True) for byte in segment.data], segment.zeroed)


def of_module(asked, source):
    """What `module` makes of a source."""
    with program.Scratch() as scratch:
        out = scratch.file("made.mod", b"")
        refuse(source, "module", asked.call("module", source.path, out))
        made = module.read_module(out)
    words = [[word, 0xFFFFFFFF] for word in made.words]
    data = [[byte, True] for byte in made.data]
    for one in made.relocations:
        if one.kind == module.QUAD:
            data[one.offset:one.offset + 8] = [[0, False]] * 8
        else:
            words[one.offset // 4][1] = OF_LINK[one.kind]
    return Made(words, data, made.zeroed)


def refuse(source, command, answer):
    status, _, notes = answer
    if status != 0:
        raise files.Refused(f"{source.path}: `{command}` answers status {status}: {notes.strip() or 'no line'}: is it "
                            f"the source of "
                            "an image" + ("" if command == "asm" else " that was linked of modules") + "?")
