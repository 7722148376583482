"""The bytes of modules and journals, by the rules of docs/modules.md and docs/journals.md."""
import struct

REPORT = b"\3"


def symbol(section, name, offset=0):
    return struct.pack("<BHI", section, len(name), offset) + name


def module(words, data, symbols, relocations=(), zeroed=0):
    """A module of these words, data and zeroed bytes, and of the bytes of symbols and relocations."""
    numbers = struct.pack("<5I", len(words), len(data), zeroed, len(symbols), len(relocations))
    return (b"ALPHAOB1" + numbers + struct.pack(f"<{len(words)}I", *words) + data + b"".join(symbols)
            + b"".join(relocations))


def units(count):
    return struct.pack("<BI", 0, count)


def trigger(value):
    return struct.pack("<BQ", 1, value)


def wait(value, flag=0):
    return struct.pack("<BBQ", 2, flag, value)


def journal(items, count, given, put, ending=0):
    """Of a run that wraps, whose ending has the numbers 0 and 0."""
    return (struct.pack("<8sBBQQIII", b"ALPHAJR1", 0, ending, 0, 0, len(given), len(put), count) + given + put
            + b"".join(items))
