"""Images: which parts are a good image, and how they are spelled. Against worked images and the built program's
answer."""
import struct

from . import drawn
from .reference import NONE, files_refused, image, parts_of
from .translate import record
from .words import rows

BAD_IMAGE = 4


def front_of(content):
    """The numbers that an image begins with, and its version; None where its first bytes are none."""
    if content[:8] == b"ALPHAIM1" and len(content) >= 48:
        code, base, entry, words, filled, zeroed, stack = struct.unpack_from("<QQQIIII", content, 8)
        level, segments = 1, ((base, filled, zeroed),)
    elif content[:8] == b"ALPHAIM2" and len(content) >= 40:
        code, entry, words, stack, level, count = struct.unpack_from("<QQIIII", content, 8)
        if count > 8 or len(content) < 40 + 16 * count:
            return None
        segments = tuple(struct.unpack_from("<QII", content, 40 + 16 * n) for n in range(count))
    else:
        return None
    segments = tuple(record(base=base, filled=filled, zeroed=zeroed) for base, filled, zeroed in segments)
    return (content[7] - 48,
            record(level=level, code_base=code, entry=entry, words=words, stack=stack, segments=segments))


class Fronts:
    name, about = "fronts", "whether a field of worked images is bad, at each bound of each field"
    counts = {"sample": 1, "whole": 1}
    is_quick = True

    def cases(self, chooser, count, asked):
        for kind, *parts in rows("images.tsv"):
            front = front_of(bytes.fromhex(parts[0].split(" ")[0])) if kind == "read" else None
            if front:
                yield *front, not parts[-1].startswith("field")

    def difference(self, d, case):
        version, numbers, wanted = case
        given = d("alpha_image.Rules.FieldsFit")(numbers)
        return "" if given == wanted else f"{numbers}: good is {given}"


class Images:
    name, about = ("images",
                   "`IsImage` of damaged parts, by what `check` says of their bytes; spellings and start memory")
    counts = {"sample": 150, "whole": 6_000}
    is_quick = False

    def cases(self, chooser, count, asked):
        for _ in range(count):
            whole = drawn.program(chooser, False, chooser.choice((1, 2)))
            for _ in range(chooser.choice((0, 1, 1, 1, 2))):
                self.damage(chooser, whole)
            try:
                content = whole.spelled()
                whole = image.image_of(content, "FILE")
            except (struct.error, ValueError, files_refused):
                continue
            status = asked.call("check", "FILE", FILE=content)[0]
            yield whole, content, status != BAD_IMAGE

    def damage(self, chooser, whole):
        """Changes one part."""
        bases = (0, 8192, 4096, 0xFFFF, drawn.CODE, drawn.DATA, (1 << 30) - 8192, 1 << 30, 0x10000008)
        # Of code without a word none can become another.
        way = chooser.choice([n for n in range(9) if whole.words or n not in (3, 8)])
        if way == 0:
            whole.code_base = chooser.choice(bases)
            whole.entry = whole.code_base
        elif way == 1:
            whole.entry += chooser.choice((-4, 2, 4, 4 * len(whole.words) - 4, 4 * len(whole.words)))
        elif way == 2:
            whole.stack = chooser.choice((0, 8, 16, 24, 32, 48, 8192, 1_048_576, 1_048_592))
        elif way == 3:
            whole.words[chooser.randrange(len(whole.words))] = chooser.getrandbits(32)
        elif way == 4:
            whole.words[:] = whole.words[:chooser.randrange(2)]
        elif way == 5 and whole.segments:
            chooser.choice(whole.segments).base = chooser.choice(bases)
        elif way == 6 and whole.segments:
            chooser.choice(whole.segments).zeroed = chooser.choice((0, 1, 8192, 1 << 24, (1 << 24) - 48,
                                                                    (1 << 24) - 47))
        elif way == 7 and whole.level:
            whole.segments += [image.Segment(drawn.DATA + 8192 * n, b"", n)
                               for n in range(1, chooser.choice((1, 2, 9)))]
        elif way == 8 and whole.level:
            whole.level = chooser.choice((1, 2, 3))
            whole.words[-1] = chooser.choice((0x70 << 24 | 3 << 24 | 31 << 21 | 0x30 << 5, whole.words[-1]))

    def difference(self, d, case):
        whole, content, is_good = case
        parts = parts_of(whole)
        given = d("alpha_image.Parts.IsImage")(parts)
        if whole.level > 2:
            # Parts have no such level: what is bad is the number.
            given = False
        if given != is_good:
            return f"{content.hex()}: an image is {given}"
        if is_good and bytes(d("alpha_image.Parts.image_spelling")(parts)) != content:
            return f"{content.hex()}: spelled otherwise"
        return "" if not is_good else self.memory(d, whole, parts)

    def memory(self, d, whole, parts):
        """The blocks of the start, by the image's bytes."""
        program = record(image=parts, completion=("Wrap",))
        state = d("alpha_seq.Start.start")(program)
        code = b"".join(word.to_bytes(4, "little") for word in whole.words)
        wanted = ([(whole.code_base, code, False)]
                  + [(one.base, one.data + bytes(one.zeroed), True) for one in whole.segments])
        wanted.append(((1 << 30) - whole.stack, bytes(whole.stack), True))
        given = [(block.first, bytes(block.bytes), block.writable) for block in state.mem]
        rest = (state.pc == whole.entry, state.regs[27] == whole.entry, state.regs[30] == 1 << 30,
                sum(map(bool, state.regs)) <= 2)
        return "" if given == wanted and all(rest) and state.lock == NONE else f"{whole.spelled().hex()}: another start"
