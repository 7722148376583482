"""The bytes of journals (docs/journals.md): their head and their items, and the lines of their ends."""
import struct

# The head of a journal, the bytes of each kind of item, and the line of each ending by its two numbers.
HEAD, ITEMS, WAIT, REPORT = struct.Struct("<8sBBQQIII"), (5, 9, 10, 1), 2, 3
ENDINGS = ("steps", "exit {0}", "signal {0} at {1:016x}", "fetch {0:016x}", "access {0:016x} address {1:016x}",
           "align {0:016x} address {1:016x}", "lost {0:016x} mask {1}", "stop at {0:016x}")
LOST, STOPPED = 6, 7


def output_of(whole):
    """The output that a journal has."""
    *_, taken, put, _ = HEAD.unpack_from(whole)
    return whole[HEAD.size + taken:HEAD.size + taken + put]


def end_of(whole):
    """The line of the end of a journal's run."""
    _, _, ending, first, second, *_ = HEAD.unpack_from(whole)
    return ENDINGS[ending].format(first, second)


def items_of(whole):
    """The kind and the place of each item of a journal."""
    *_, taken, put, _ = HEAD.unpack_from(whole)
    at = HEAD.size + taken + put
    while at < len(whole):
        yield whole[at], at
        at += ITEMS[whole[at]]


def logged_count(whole):
    """How many overflows a journal's run logs: each report, but for one that ends it."""
    return sum(kind == REPORT for kind, _ in items_of(whole)) - (HEAD.unpack_from(whole)[2] in (LOST, STOPPED))
