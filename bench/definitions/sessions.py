"""Sessions: what the clause `runs` says of calls of `debug FILE`, whatever the devices tell.

The clause must hold of a call as it was, and of one with another script, text, status, file or setting it mustn't.
"""
import random
import re

from . import drawn
from .calls import DONE, Device, call_of, pieces_of, told, words_of
from .commands import steps_to_end
from .places import least_in
from .reference import CONDITIONS, NONE, broken_in, option, parts_of, program_of, some
from .replies import PAST, takes_of
from .translate import record

LIMIT, MOST_LINE = 1_048_576, 1_024


def line_of(chooser, whole, is_short):
    """A line of a script. Where the program doesn't end soon it makes few steps."""
    places = [whole.address(n) for n in (0, 2, 7, len(whole.words) - 1, len(whole.words))]
    address = chooser.choice((*places, drawn.DATA, drawn.DATA + 41, drawn.CODE + 2, 0, 1 << 64))
    shown = chooser.choice((f"{address}", f"{address:#x}", f"{address:#X}".replace("X", "x"), f"{address:x}"))
    count = chooser.choice((0, 1, 2, 16, 17, 33, 256, 257))
    steps = chooser.choice((0, 1, 2, 3, 9, 1_000_001, *((1_000_000,) if is_short else ())))
    lines = ["step", f"step {steps}", f"break {shown}", f"clear {shown}", "regs", f"mem {shown} {count}",
             f"dis {shown} {count}", "shadow", "log", "", " \t", "quit now", "regs 1", "Step", f" step\t{steps} ",
             f"mem {shown}", "step x", "step -1", "step 1 2 3", "dis 1 2 3",
             " " * chooser.choice((1_020, 1_021)) + "step"]
    lines += ["go", "go", "barrier", "barrier", "go"] * is_short
    return chooser.choice(lines)


def script_of(chooser, whole):
    is_short = steps_to_end(whole, "wrap", b"") is not None
    lines = [line_of(chooser, whole, is_short) for _ in range(chooser.choice((0, 1, 4, 9, 14)))]
    if chooser.random() < 0.3:
        lines.insert(chooser.randrange(len(lines) + 1), "quit")
    if chooser.random() < 0.1:
        lines = [f"break {n}" for n in range(66)] + lines
    end = chooser.choice(("\n", "\n", "\r\n"))
    return (end.join(lines) + chooser.choice(("", end, end + end))).encode()


def worked(whole):
    """A script with each command, of which some change what others show, for a program that ends soon."""
    first, last = whole.entry, whole.address(len(whole.words) - 1)
    lines = ["shadow", "regs", "log", f"mem {drawn.DATA:#x} 17", f"mem {drawn.DATA + 7} 16", f"dis {first} 9",
             f"dis {last:#x} 2", f"break {first + 12}", f"break {first + 12}", f"break {last}", "barrier", "regs", "go",
             "step 2", "go", "log", f"clear {first + 12}", "barrier", "regs", f"mem {drawn.DATA} 48", "go", "go",
             "step", "barrier", "log", "regs"]
    return "\n".join(lines).encode()


def command_by(line):
    """What a line of a script asks for, by docs/debugger.md."""
    words = line.replace("\t", " ").split(" ")
    name, *rest = [word for word in words if word] or [""]
    numbers = [number_of(word) for word in rest]
    if len(line) > MOST_LINE or None in numbers:
        return ("Unknown",)
    if not numbers:
        alone = {"": ("Nothing",), "step": ("Step", 1), "go": ("Go",), "barrier": ("Barrier",), "regs": ("Registers",),
                 "shadow": ("Shadow",), "log": ("Log",), "quit": ("Quit",)}
        return alone.get(name, ("Unknown",))
    if len(numbers) == 1 and (name in ("break", "clear") or name == "step" and 1 <= numbers[0] <= 1_000_000):
        return (name.capitalize(), *numbers)
    if len(numbers) == 2 and name in ("mem", "dis") and 1 <= numbers[1] <= 256:
        return ("Memory" if name == "mem" else "Listing", *numbers)
    return ("Unknown",)


def number_of(word):
    """A number below 2 ^ 64, decimal or hexadecimal behind `0x`; None of another word."""
    found = re.fullmatch(r"0x([0-9a-fA-F]+)|([0-9]+)", word)
    value = found and (int(found[1], 16) if found[1] else int(found[2]))
    return value if found and value < 1 << 64 else None


class Commands:
    name, about = "lines of scripts", "what a line of a script asks for, by the page of the debugger"
    counts = {"sample": 400, "whole": 20_000}
    is_quick = True
    NAMES = ("step", "go", "barrier", "break", "clear", "regs", "mem", "dis", "shadow", "log", "quit", "", "x", "ste",
             "stepp", "Go")
    WORDS = ("0", "1", "256", "257", "1000000", "1000001", "0x10000", "0xFFFFFFFFFFFFFFFF", "18446744073709551615",
             "18446744073709551616", "0x10000000000000000", "0X1", "0x", "1x", "x", "-1", "+1", "1.", "$1", "007", "a",
             "0xaBc", "1,2", "1#", "\"a\"", "(", "é")

    def cases(self, chooser, count, asked):
        for _ in range(count):
            rest = [chooser.choice(self.WORDS) for _ in range(chooser.choice((0, 0, 1, 1, 2, 2, 3)))]
            words = [chooser.choice(self.NAMES), *rest]
            line = chooser.choice((" ", " ", "\t", "  ")).join(words)
            yield chooser.choice(("", "", "", " ")) + line + chooser.choice(("", "", "", "\t "))
        yield from self.NAMES
        yield from (f"step {count}" for count in (0, 1, 1_000_000, 1_000_001))
        yield from (f"{name} 0 {count}" for name in ("mem", "dis") for count in (0, 1, 256, 257))
        yield from (f"{name} {number}" for name in ("break", "clear") for number in (0, (1 << 64) - 1, 1 << 64))
        for size in (MOST_LINE, MOST_LINE + 1):
            yield from ("step".ljust(size), " " * size)

    def difference(self, d, case):
        given, wanted = d("alpha_debug.Command.command_of")(tuple(case.encode())), command_by(case)
        return "" if given == wanted else f"{case!r} is {given}, and {wanted} is wanted"


class Sessions:
    name, about = "sessions", "`runs` of calls of `debug` over scripts, as they were, and with something else"
    counts = {"sample": 30, "whole": 1_000}
    is_quick = False
    # What is otherwise, and whether the clause holds then; None where that is told beside.
    WAYS = {"as it was": True, "pieces": True, "idle": True, "told": True, "told otherwise": False, "memory": True,
            "input": True, "sink": True, "large": True, "larger": False, "spent": False, "shelf": False, "more": False,
            "less": False, "notes": False, "out": False, "lines": False, "twice": False, "another": False,
            "cut": False, "bad": False, "script": None, "verdict": None, "saturated": None, "failed": False}
    STATUSES = {"memory": ("NoMemory",), "input": ("InputFault",), "sink": ("SinkFault",), "large": ("TooLarge", LIMIT),
                "larger": ("TooLarge", LIMIT - 1), "spent": ("StepsSpent",), "shelf": ("ShelfFault",)}

    def cases(self, chooser, count, asked):
        for n in range(count):
            whole = drawn.program(chooser, n % 3 == 0, 1 + n % 5 // 4, n % 2)
            is_worked = n % 4 == 1 and steps_to_end(whole, "wrap", b"") is not None
            script, other = worked(whole) if is_worked else script_of(chooser, whole), script_of(chooser, whole)
            answers = [asked.call("debug", "FILE", given=one, FILE=whole.spelled()) for one in (script, other)]
            yield whole, script, other, answers, chooser.getrandbits(32)

    def difference(self, d, case):
        whole, script, other, ((status, out, notes), (_, other_out, _)), seed = case
        d.forget()
        if status != 0 or notes:
            return f"{script} at {whole.spelled().hex()}: status {status}, notes {notes}"
        content, bad = tuple(whole.spelled()), drawn.longer(whole, 1 << 26)
        settings = self.settings(whole)
        d.given(images=[parts_of(whole), parts_of(bad)], settings=list(settings.values()), events=[], plans=[],
                pieces=[(content,), (content[:-1], content[-1:]), (content + (0,),), (tuple(bad.spelled()),)])
        if not self.goes_on(d, settings["own"], tuple(script), out):
            return f"{script} at {whole.spelled().hex()}: another session where some of it is a line begun"
        for way, wanted in self.WAYS.items():
            text = other_out if way == "script" else out
            if way in settings:
                text = bytes(d("alpha_debug.Script.transcript")(settings[way], tuple(script)).text)
            wanted = text == out if wanted is None else wanted
            call = self.call(d, way, random.Random(seed), content, tuple(bad.spelled()), script, text)
            found = d("alpha_cmd.RunsAsked.RunsAsked")(words_of(b"debug", b"FILE"), self.STATUSES.get(way, DONE), call)
            if found != wanted:
                return f"{way} of {script} at {whole.spelled().hex()}: {found}, and {wanted} is wanted"
        return ""

    def goes_on(self, d, setting, script, out):
        """Whether a session whose first line is begun says the same."""
        opened, from_ = d("alpha_debug.Session.opened")(setting), d("alpha_debug.Script.transcript_from")
        begun = next((at for at, byte in enumerate(script) if byte in b"\r\n"), len(script))
        found = from_(setting, opened, len(script), script[:begun], script[begun:])
        return bytes(found.text) == out and found.end == ("Done",)

    def settings(self, whole):
        """The setting of a session, and such as it doesn't have: with another verdict, and by another completion."""
        least = least_in(broken_in(whole.words))
        verdict = option(least and record(trigger=least[0], at=least[1], condition=(CONDITIONS[least[2] - 1],)))
        wrong = some(record(trigger=0, at=1, condition=("Open",))) if least is None else NONE
        return {"own": record(program=program_of(whole, "wrap"), verdict=verdict),
                "verdict": record(program=program_of(whole, "wrap"), verdict=wrong),
                "saturated": record(program=program_of(whole, "saturate"), verdict=verdict)}

    def call(self, d, way, chooser, content, bad, script, out):
        """The call by what the devices replied, and put."""
        files = {"told": told({b"FILE": bytes(content)}),
                 "told otherwise": told({b"FILE": bytes(content) + b"x"})}.get(way, NONE)
        file = {"another": content + (0,), "bad": bad}.get(way, content)
        shelf = pieces_of(b"FILE", (file[:-1], file[-1:], ()) if way == "pieces" else (file, ()))
        shelf = shelf[:1] if way == "cut" else shelf * (1 + (way == "twice"))
        takes = takes_of(chooser, script) + (("Took", 9, some(())),) * (1 + (way == "idle"))
        takes += (PAST[1],) * (way == "failed")
        put = {"more": out + b"x", "less": out[:-1] if out else b"x"}.get(way, out)
        changed = {"old_shelf": Device(files, replies=PAST[:1]), "new_shelf": Device(files, replies=PAST[:1] + shelf),
                   "old_input": Device(NONE, replies=PAST[:3]), "new_input": Device(NONE, replies=PAST[:3] + takes),
                   "new_out": Device(some((9, *put)), int(way == "out")),
                   "new_notes": Device(some((8, *(b"x" * (way == "notes")))), int(way == "lines"))}
        return call_of(d, {}, b"", b"", b"", b"", **changed)
