"""Images, of version 1 and 2, as docs/images.md has them."""
import struct

from . import files

CODE_BASE, STACK_BYTES, PAGE, END = 0x10000, 65_536, 8_192, 1 << 30
MOST_WORDS, MOST_DATA = 262_144, 16_777_216


class Segment:
    """A segment of data: its base, its bytes, and how many zeroed bytes follow them."""

    def __init__(self, base, data=b"", zeroed=0):
        self.base, self.data, self.zeroed = base, data, zeroed


class Image:
    """The parts of an image. A level of 0 stands for an image of version 1."""

    def __init__(self, words, code_base, entry, segments, stack=STACK_BYTES, level=0):
        self.words, self.code_base, self.entry = words, code_base, entry
        self.segments, self.stack, self.level = segments, stack, level

    def spelled(self):
        """Its bytes."""
        code = struct.pack(f"<{len(self.words)}I", *self.words)
        data = b"".join(segment.data for segment in self.segments)
        if self.level == 0:
            segment, = self.segments
            header = struct.pack("<8sQQQIIII", b"ALPHAIM1", self.code_base, segment.base, self.entry, len(self.words),
                                 len(segment.data), segment.zeroed, self.stack)
        else:
            header = struct.pack("<8sQQIIII", b"ALPHAIM2", self.code_base, self.entry, len(self.words), self.stack,
                                 self.level, len(self.segments))
            header += b"".join(struct.pack("<QII", segment.base, len(segment.data), segment.zeroed)
                               for segment in self.segments)
        return header + code + data

    def address(self, place):
        return self.code_base + 4 * place

    def place(self, address):
        """The place of a code address, or None."""
        place, rest = divmod(address - self.code_base, 4)
        return place if rest == 0 and 0 <= place < len(self.words) else None


def read_image(path):
    """The image of a file. Only its layout is looked at here; the program judges whether its fields and words are
    good."""
    return image_of(files.read_bytes(path, files.MOST_IMAGE), path)


def image_of(content, path):
    try:
        if content[:8] == b"ALPHAIM1":
            base, data_base, entry, words, data, zeroed, stack = struct.unpack_from("<QQQIIII", content, 8)
            at, level, sizes = 48, 0, [(data_base, data, zeroed)]
        elif content[:8] == b"ALPHAIM2":
            base, entry, words, stack, level, count = struct.unpack_from("<QQIIII", content, 8)
            if count > 8 or level == 0:
                raise files.Refused(f"{path}: no image: level {level}, {count} segments")
            at, sizes = 40 + 16 * count, [struct.unpack_from("<QII", content, 40 + 16 * n) for n in range(count)]
        else:
            raise files.Refused(f"{path}: no image: it begins with neither ALPHAIM1 nor ALPHAIM2")
        wanted = at + 4 * words + sum(data for _, data, _ in sizes)
        if len(content) != wanted:
            raise files.Refused(f"{path}: no image: {len(content)} bytes, and its numbers want {wanted}")
        code = list(struct.unpack_from(f"<{words}I", content, at))
    except struct.error as error:
        raise files.Refused(f"{path}: no image: too short") from error
    at += 4 * words
    segments = []
    for segment_base, data, zeroed in sizes:
        segments.append(Segment(segment_base, content[at:at + data], zeroed))
        at += data
    return Image(code, base, entry, segments, stack, level)
