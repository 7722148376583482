"""Archives of objects, as `ar` writes them: the members of one by their names."""
import re

from . import files, shown

MAGIC, THIN = b"!<arch>\n", b"!<thin>\n"
HEADER = 60


def members(whole):
    """(name, window of the file) of each member, but for the tables of an archive."""
    at, names = len(MAGIC), b""
    while at + HEADER <= whole.size:
        header = whole.part(at, HEADER)
        size = re.fullmatch(rb"([0-9]+) *", header[48:58])
        if header[58:] != b"`\n" or size is None or int(size[1]) > whole.size - at - HEADER:
            raise files.Refused(f"{whole.path}: damaged: no member of an archive begins at its byte {at}")
        length, start, name = int(size[1]), at + HEADER, header[:16].rstrip()
        at = start + length + length % 2
        if name == b"//":
            names = whole.part(start, length)
        elif name not in (b"/", b"/SYM64/", b"__.SYMDEF"):
            if match := re.fullmatch(rb"/([0-9]+)", name):
                name = names[int(match[1]):max(int(match[1]), names.find(b"/\n", int(match[1])))]
            elif (match := re.fullmatch(rb"#1/([0-9]+)", name)) and int(match[1]) <= length:
                name = whole.part(start, int(match[1])).rstrip(b"\0")
                start, length = start + int(match[1]), length - int(match[1])
            told = shown.name(name.rstrip(b"/").decode("utf-8", "surrogateescape"))
            yield told, whole.window(f"{whole.path}({told})", start, length)
