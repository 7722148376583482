"""Text for whoever reads it: names that come from files reach a terminal or a log as letters and signs alone."""
import re

# What isn't plain ASCII in a line. Of these, too, letters and signs that can be seen stay.
UNSEEN = re.compile(r"[^\n\t -~]")


def text(given):
    """A text in which whatever can't be seen, line ends and tabs left out, is an escape, as `\\x1b`."""
    return UNSEEN.sub(lambda match: match[0] if match[0].isprintable() else escape_of(match[0]), given)


def escape_of(character):
    number = ord(character)
    if 0xDC80 <= number <= 0xDCFF:
        # A byte that is no UTF-8.
        number -= 0xDC00
    return f"\\x{number:02x}" if number < 0x100 else f"\\u{number:04x}" if number < 0x10000 else f"\\U{number:08x}"


def name(given):
    """A name that stands within a line, and is a field of one: no line ends, no tabs, and no blanks at its ends."""
    inner = text(given).replace("\n", "\\x0a").replace("\t", "\\x09")
    kept = inner.strip(" ")
    front = len(inner) - len(inner.lstrip(" "))
    return "\\x20" * front + kept + "\\x20" * (len(inner) - len(kept) - front)


class Stream:
    """A stream that writes each text as it is shown, and what its encoding hasn't as an escape."""

    def __init__(self, stream):
        self.stream = stream
        if hasattr(stream, "reconfigure"):
            stream.reconfigure(errors="backslashreplace")

    def write(self, given):
        return self.stream.write(text(given))

    def __getattr__(self, attribute):
        return getattr(self.stream, attribute)
