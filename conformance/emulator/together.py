"""Several wrong emulators in one program, which costs less than a program for each: it is the one that it is called by
the name of. Where a fault changes one function, the program has that function once more; else all of the emulator."""
import re
from collections import namedtuple

TEXTS = re.compile(r'("(?:\\.|[^"\\])*")')
# What stands at the left margin and is a name of the whole file: of functions, values, structures and enumerations.
FUNCTIONS = re.compile(r"^(?:static [\w *]*?|int )(\w+)\([^;]*\)\n\{", re.M)
TAGS = re.compile(r"^(?:enum|struct) (\w+)", re.M)
MEMBERS = re.compile(r"^enum[^{;]*\{([^}]*)\}", re.M)
VALUES = re.compile(r"^(?:static .*\}|\}) (\w+);|^static int (\w+), (\w+) =", re.M)
# Behind this line of the emulator its names begin.
HEAD = "typedef __int128 wide;\n"
# A function: where it stands in the text, its name, the line before its body, and its body.
Function = namedtuple("Function", "start end name head body")
PICK = "static int picked;\n"


def names_of(text):
    """The names of the whole file of a text of C that is laid out as that emulator is."""
    names = {*FUNCTIONS.findall(text), *TAGS.findall(text)}
    names.update(name for found in VALUES.findall(text) for name in found if name)
    names.update(member.split("=")[0].strip() for members in MEMBERS.findall(text) for member in members.split(","))
    return names


def renamed(text, number):
    """A text whose names are its own; strings stay as they are."""
    names = re.compile(rf"\b({'|'.join(sorted(names_of(text)))})\b")
    return "".join(part if part.startswith('"') else names.sub(rf"\1_{number}", part) for part in TEXTS.split(text))


def functions_of(text):
    """The functions of a text, each up to the brace at the left margin."""
    found = []
    for one in FUNCTIONS.finditer(text):
        end = text.index("\n}\n", one.end()) + 3
        head = text[one.start():one.end() - 1]
        found.append(Function(one.start(), end, one[1], head, text[one.end() - 1:end]))
    return found


def changed(functions, right, wrong):
    """The number of the one function in which a wrong text differs, and its body there; or None."""
    for number, one in enumerate(functions):
        start, rest = one.start + len(one.head), len(right) - one.end
        end = len(wrong) - rest
        if wrong[:start] == right[:start] and wrong[end:] == right[one.end:] and wrong[start:end].count("\n}\n") == 1:
            return number, wrong[start:end]
    return None


def with_others(one, bodies):
    """A function, with its other bodies by the numbers of the emulators that have them."""
    if not bodies:
        return one.head + one.body
    first = one.head.replace(f"{one.name}(", f"{one.name}_right(", 1)
    words = one.head[one.head.index("(") + 1:one.head.rindex(")")]
    given = ", ".join(re.findall(r"(\w+)(?:,|$)", words)) if words != "void" else ""
    others = [first.replace("_right(", f"_of_{number}(", 1) + body for number, body in bodies.items()]
    picks = [f"    case {number}: return {one.name}_of_{number}({given});\n" for number in bodies]
    return "".join([first + one.body, *others, one.head, "{\n    switch (picked) {\n", *picks,
                    f"    default: return {one.name}_right({given});\n    }}\n}}\n"])


def program_of(right, texts):
    """The program of emulators by their names; `right` is the text that each of them changes."""
    head, _, right = right.partition(HEAD)
    functions, others, whole, calls = functions_of(right), {}, [], []
    for number, (name, text) in enumerate(texts.items(), 1):
        text = text.partition(HEAD)[2]
        found = changed(functions, right, text)
        main = f"main_{number}" if found is None else "main_0"
        if found is None:
            whole.append(renamed(text, number))
        else:
            others.setdefault(found[0], {})[number] = found[1]
        calls.append(f'    if (!strcmp(name, "{name}"))\n        return picked = {number}, {main}(count, words);\n')
    parts, at = [], 0
    for number, one in enumerate(functions):
        parts += [right[at:one.start], with_others(one, others.get(number))]
        at = one.end
    text = re.sub(r"\bmain(_of_\d+|_right|)\(", r"main_0\1(", "".join([*parts, right[at:]]))
    return "".join([head, HEAD, PICK, text, *whole,
                    "\nint main(int count, char **words)\n{\n    const char *name = strrchr(words[0], '/');\n"
                    "    name = name ? name + 1 : words[0];\n", *calls, "    return 2;\n}\n"])
