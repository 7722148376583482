#!/usr/bin/env python3
"""Holds the names that the crates declare: they are the field's words, and each stands for one thing.

- None is a word of PRIVATE, nor has one of PARTS in it: nobody could guess what it stands for, and a better one is
  beside it. Held are the names of items, fields and cases, clauses, parameters and files, and those behind `as`; not
  what the kit declares, nor a variable of a body.
- No name that a file of lemmas makes public stands in two crates, and no two crates make one statement public under
  two names, but for those of TWINS.

    bench/names.py

bench/quotes.py does the same beside its own. It ends with 1 where a name is found.
"""
import collections
import pathlib
import re
import sys

TOP = pathlib.Path(__file__).resolve().parent.parent
# A word, and the better one. A word that others use too is held in the crates of the third column alone, or of such a
# kind of name; behind `of` stand the public types that have a case of this name.
PRIVATE = {row.split()[0]: row.split("|")[1:] for row in """
said        | stmt, line_stmt
Said        | Stmt
item_said   | line_stmt_of
Coded       | InsnStmt
Own         | PseudoOp
own_rows    | pseudo_op_rows
goes        | steps_to, continues
Goes        | Retires                 | of PalEnd
goes_on     | retires, continues
Making      | ChosenRun
made        | chosen_run, finish_image | item file
Print       | StepLabel
Picks       | ChoiceSource
Given       | FixedChoice
Gathered    | BuilderState
note_one    | push_unit
Stand       | Cursor
Stands      | CursorAt, Simulates
Standing    | GlobalSymbol
Seen        | Compared, Event
Front       | Lexeme, JournalHeader
Lead        | InsnPrefix
Cut         | SplitLine               | of ModuleFault
Rest        | Unparsed                | of ModuleFault JournalFault
behind      | rest                    | alpha_quick
Does        | CommandEffect
Did         | RunEffect
Gave        | Answered
Settles     | FinalOutcome
Decides     | OutcomeOrFault
Tries       | TriedAnswer
turn        | observed_step           | alpha_run
Turned      | ObservedStep
Slips       | FaultedStep
Behind      | StateAfterFault
IsCut       | IsPrefixRun
Happening   | ImpreciseEvent
Moment      | StepResult
Quiet       | NoFault
calm        | faults_unchanged
Rose        | Faulted
Talk        | SessionState
Held        | PendingLine
hear        | feed                    | alpha_debug
say         | emit                    | alpha_debug
converse    | run_session
walk        | step_until              | alpha_debug
travel      | continue_until          | alpha_debug
what        | command, shown
how         | completion
by          | field, kind
way         | kind
Use         | RelocField
suits       | applies_to              | alpha_asm alpha_link
Need        | Target
unmet       | out_of_range            | alpha_asm alpha_link
Bound       | PositionDependent
is_fixed    | depends_on_position
is_off      | has_offset
Spot        | LabelLocation
spoil       | execute_unpredictable
Spoils      | ExecutesUnpredictable
spoils      | executes_unpredictable  | alpha_imprecise alpha_restart
unit        | pow2                    | alpha_asm
narrow      | to_u32                  | alpha_link
deal        | counting_pass           | alpha_link
near        | region_hint, in_range
""".strip().split("\n")}
# Words that no name has as a part, with the better ones.
PARTS = {"wild": "imprecise", "rush": "run_fast", "rushes": "RunsFast", "rushed": "fast_steps", "hasten": "run_fast",
         "hastens": "RunsFast", "hastened": "fast_steps", "tape": "builder", "taped": "built", "telling": "oracle"}
# The public names that have such a part: a type, what a step of it ended with, a condition; and a value of the type.
PUBLIC = re.compile(r"WildBase|wild_base|^(?:Wild|WildEnd|wild)$")

NAME = r"[^\W\d][^\s(){}\[\].;,:@<>|&!]*"
ASIDES = {".antt": re.compile(r'(?<![^\s(){}.;,@])--[^\n]*|\{-.*?-\}|"(?:[^"\\]|\\.)*"', re.S),
          ".rt": re.compile(r"""//[^\n]*|/\*.*?\*/|b?r(#*)".*?"\1|b?"(?:[^"\\]|\\.)*"|(?<!\w)b?'(?:[^'\\]|\\.[^']*)'""",
                            re.S)}
# Of definitions and proofs.
ITEM = re.compile(rf"( *)((?:(?:pub|abbrev|unfoldable|data|record) )*)({NAME})(?=\s|$)")
BLOCKS = ("data", "record")
GROUP = re.compile(rf"[({{]((?:{NAME}\s+)+):(?=\s)")
ALIASES = re.compile(r"^ *(?:pub |ghost )*use [^;\n]*", re.M)
# Of code.
DECLARED = re.compile(rf"\b(fn|struct|enum|trait|type|const|static|mod|macro_rules!) ({NAME})")
CLAUSE = re.compile(rf"\b(?:ensures|requires) ({NAME}) \{{")
GHOST = re.compile(rf"\bghost ({NAME})(?: =|:)")
PARAMETER = re.compile(rf"(?:#\[[^\]]*\]\s*|pub(?:\(\w+\))? |mut )*({NAME})\s*(?::(?!:)|$|[({{=])")
# Of lemmas: a public statement, the names that one binds, and an import.
STATEMENT = re.compile(rf"^pub ({NAME})\s+:((?:.*\n)(?:  .*\n)*)", re.M)
BINDS = re.compile(rf"[({{]((?:{NAME}\s+)+):\s|λ\s*\(?((?:{NAME}\s*)+)[.:]")
IMPORT = re.compile(r"^use (Rattle[\w.]+)\.\{([^}]*)\}", re.M)
# Pairs of names for one statement that still stand: each is to be one.
TWINS = {("length-asm_low_bytes", "low_bytes-length"), ("list_any-map", "list_any-map_names"),
         ("IfErr-map", "err_with"), ("first-snoc", "first_append"), ("OnErr-always", "listing_OnErr-any"),
         ("IsBytes-All", "bytes_of_all"), ("comma-tokens", "tokens-comma_first")}
# Files of answers, whose names and whose items' names the kit gives.
OF_THE_KIT = ("Answers", "Invariants", "Proof", "Given", "Lib", "lib", "main")


def plain(path):
    """A file's text with blanks for its comments and quoted texts."""
    return ASIDES[path.suffix].sub(lambda found: re.sub(r"[^\n]", " ", found.group()), path.read_text(encoding="utf-8"))


def closing(text, at):
    """Where the bracket at a place is closed."""
    depth = 0
    for found in re.compile(r"[()\[\]{}]").finditer(text, at):
        depth += 1 if found.group() in "([{" else -1
        if depth == 0:
            return found.start()
    return len(text)


def parted(text, at, end):
    """The parts between the commas of a bracket, each with its place."""
    depth, start = 0, at
    for found in re.compile(r"[()\[\]{},]|(?<![-=])>|<(?=[\w&'(\[])").finditer(text, at, end):
        if found.group() == "," and depth == 0:
            yield start, text[start:found.start()]
            start = found.end()
        elif found.group() != ",":
            depth += 1 if found.group() in "([{<" else -1
    yield start, text[start:end]


def groups(text):
    """The names of groups of parameters, as `(a b : T)`, but for those of a λ."""
    skipped = set()
    for found in GROUP.finditer(text):
        before = text[max(0, found.start() - 40):found.start()].rstrip()
        at = found.start() - (len(text[:found.start()]) - len(text[:found.start()].rstrip()))
        if before.endswith(("λ", "∀")) or at in skipped:
            skipped.add(closing(text, found.start()) + 1)
            continue
        yield from (("parameter", name, found.start(), "") for name in found.group(1).split())


def aliases(text):
    for line in ALIASES.finditer(text):
        yield from (("alias", name, line.start(), "") for name in re.findall(rf" as ({NAME})", line.group()))


def of_logic(text, is_invariant):
    """What a file of definitions or proofs declares: the kind, the name, the place and the owner of each. What stands
    in a `where` is a variable of its body. The parts of an invariant are fields."""
    heads, at = [], 0
    for line in text.split("\n"):
        found = ITEM.match(line)
        start, at = at, at + len(line) + 1
        if not found or len(found.group(1)) % 2:
            continue
        indent, words, name = found.groups()
        heads = [head for head in heads if head[0] < len(indent)]
        opened = max((head[0] + 2 for head in heads), default=0)
        behind = line[found.end():].strip()[:1]
        kind = next((it for it in BLOCKS if it in words.split()), "")
        if len(indent) == opened and (kind or behind == ":" or words and not behind):
            owner = heads[-1][1] if heads and heads[-1][2] != "module" else ""
            yield "field" if owner else "item", name, start + found.start(3), owner
        if len(indent) == opened and (kind or name == "module" or is_invariant):
            heads.append((len(indent), name, kind or ("module" if name == "module" else "record")))
    yield from groups(text)
    yield from aliases(text)


def fields(text, owner, start, end):
    """The fields of a struct or the cases of an enum, with the cases' own fields."""
    for at, part in parted(text, start, end):
        found = PARAMETER.match(part.lstrip())
        if found:
            yield "field", found.group(1), at + len(part) - len(part.lstrip()), owner
            inner = part.find("{")
            if 0 <= inner < len(part) and ":" not in part[:inner]:
                yield from fields(text, found.group(1), at + inner + 1, closing(text, at + inner))


def of_code(text):
    """What a file of code declares."""
    for found in DECLARED.finditer(text):
        kind, name = found.groups()
        yield "item", name, found.start(2), ""
        opener = "(" if kind == "fn" else "{" if kind in ("struct", "enum") else None
        at = opener and re.compile(r"[{(;]" if opener == "{" else r"\(").search(text, past_generics(text, found.end()))
        if at and at.group() == opener:
            end = closing(text, at.start())
            if kind != "fn":
                yield from fields(text, name, at.start() + 1, end)
                continue
            for place, part in parted(text, at.start() + 1, end):
                one = PARAMETER.match(part.lstrip())
                if one:
                    yield "parameter", one.group(1), place + len(part) - len(part.lstrip()), name
    yield from (("clause", found.group(1), found.start(1), "") for found in CLAUSE.finditer(text))
    yield from (("item", found.group(1), found.start(1), "") for found in GHOST.finditer(text))
    yield from groups(text)
    yield from aliases(text)


def past_generics(text, at):
    """The place behind the `<..>` that may stand there."""
    depth = 0
    while at < len(text) and (depth or text[at] == "<"):
        depth += (text[at] == "<") - (text[at] == ">" and text[at - 1] not in "-=")
        at += 1
    return at


def better(kind, name, owner, crate):
    """The better word for a name that is private, or None."""
    words, *where = (part.strip() for part in PRIVATE.get(name, [""]))
    where = where[0].split() if where else []
    if words and not (where[:1] == ["of"] and owner in where) and (
            not where or where[0] == "of" or crate in where or kind in where):
        return words
    parts = re.findall(r"[A-Z]?[a-z]+", PUBLIC.sub("", name))
    return next((PARTS[part.lower()] for part in parts if part.lower() in PARTS), None)


def declared():
    """All names that the crates declare, with their files."""
    for path in sorted(TOP.glob("crates/*/*/**/*")):
        if path.suffix not in ASIDES or "out" in path.relative_to(TOP).parts:
            continue
        text = plain(path)
        if path.stem not in OF_THE_KIT:
            yield path, text, "file", path.stem, 0, ""
        found = of_code(text) if path.suffix == ".rt" else of_logic(text, path.stem == "Invariants")
        yield from ((path, text, *one) for one in found)


def statements(text, module):
    """The public lemmas of a file, each with its statement: bound names are numbered, imported ones have their module,
    and brackets are left out."""
    origin = {name.split(" as ")[-1].strip(): f"{found.group(1)}.{name.split(' as ')[0].strip()}"
              for found in IMPORT.finditer(text) for name in found.group(2).split(",")}
    own = {found.group(1) for found in re.finditer(rf"^(?:(?:pub|abbrev) )*({NAME})\s+:", text, re.M)}
    for found in STATEMENT.finditer(text):
        bound = {}
        for group in BINDS.finditer(found.group(2)):
            for name in (group.group(1) or group.group(2)).split():
                bound.setdefault(name, str(len(bound)))
        words = re.findall(r"[.,;]|[^\s(){}.,;]+", found.group(2))
        yield found.group(1), found.start(1), " ".join(
            bound.get(word) or origin.get(word) or (f"{module}.{word}" if word in own else word) for word in words)


def twins():
    """The public statements that two crates have under two names."""
    places = collections.defaultdict(dict)
    for path in sorted(TOP.glob("crates/*/proofs/**/*.antt")):
        crate = path.relative_to(TOP).parts[1]
        if path.stem in OF_THE_KIT:
            continue
        text = plain(path)
        for name, at, said in statements(text, f"{crate}.{path.stem}"):
            places[said].setdefault(crate, (name, f"{path.relative_to(TOP)}:{text.count(chr(10), 0, at) + 1}"))
    for where in places.values():
        names = tuple(sorted({name for name, _ in where.values()}))
        if len(where) > 1 and names not in TWINS:
            yield f"{' and '.join(names)} state the same: {', '.join(place for _, place in where.values())}"


def check(wrong):
    """Holds all names: what is wrong is added to the list."""
    public, places = collections.defaultdict(dict), collections.defaultdict(list)
    for path, text, kind, name, at, owner in declared():
        crate = path.relative_to(TOP).parts[1]
        word, place = better(kind, name, owner, crate), f"{path.relative_to(TOP)}:{text.count(chr(10), 0, at) + 1}"
        if word:
            places[f"{crate}: the {kind} {name}, better {word}"].append(place)
        before = text[text.rfind("\n", 0, at) + 1:at]
        if kind == "item" and "proofs" in path.parts and path.stem not in OF_THE_KIT and "pub " in before:
            public[name].setdefault(crate, place)
    wrong.extend(f"{text}: {', '.join(sorted(set(where)))}" for text, where in sorted(places.items()))
    wrong.extend(f"the public {name} stands in {len(where)} crates: {', '.join(where.values())}"
                 for name, where in sorted(public.items()) if len(where) > 1)
    wrong.extend(twins())


def main():
    wrong = []
    check(wrong)
    print("\n".join(wrong) or "no name is private, and no public lemma's stands in two crates")
    sys.exit(bool(wrong))


if __name__ == "__main__":
    main()
