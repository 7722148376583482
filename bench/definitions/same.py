"""Slips that no run finds, by crate, definition, line and change, and why: they mean the same, or take too long."""

STEPS = "a run of a hundred million steps isn't tried; docs/commands.md has the number, and cases of words do"
KEPT = "which files are told before and which after is the same to `KeepsFiles` and `KeepsOtherFiles`"
FILLED = "`zeroed` bounds the data bytes of all segments together"
ABOVE = "code that ends above 2 ^ 30 shares an address with the stack, which `regions` forbids"
PROVED = "of an accepted image a run of the imprecise machine shows what one of the sequential machine does"
PLAYED = "what a journal is that is replayed is proved beside, and held by `IsRun` and `IsSequential` alone"
GOOD = "a good journal, which one that is kept is, is within the limits"
USED = "a run with a journal stops where its units are used and nothing is pending, before it uses another one"
SCRIPT = "a script of a mebibyte isn't tried"
PLACED = "a word that overflows was fetched, so it has a place"
BEHIND = "behind the word that sets the register no use of it is exposed"
EMPTY = "code without a word has none that is its entry, which `entry` asks for"
UNSEEN = "a report and a step with nothing pending look at no value that is chosen, nor at `adds`"
TRIGGER = "a trigger looks at neither `report` nor `adds`; of a word that waits it is found"
ALONE = "`destination_at` is that of a trigger alone, and `IsBroken` asks for one before"
EVEN = "the opcode, whose lowest bit is the next one, is even"
BRANCH = "a word whose opcode has bit 5 more is a branch, and is taken for one before"
NUMBER = "bit 25 is the highest of the call's number, and no call has it"
LOW = "the low 32 bits of a sum, a difference or a product are by the low 32 bits of the sources alone"
BYTES = "a register has eight bytes, and a mask eight bits"
STARTS = "with nothing pending no count of words since a trigger is looked at, and the next step sets it"
FORMS = "no word has two forms, so the order in which they are tried is the same"
ALIKE = "of two texts that are compared none comes first"
FIRST = "the first difference of two lists is that of the second and the first one"
# The longword operations, whose sources may be read as quadwords.
LONGWORDS = ("Addl", "AddlV", "S4addl", "S8addl", "Subl", "SublV", "S4subl", "S8subl", "Mull", "MullV")

SAME = {
    "alpha_cmd:answer_plain: 100000000 becomes 100000001": STEPS,
    "alpha_cmd:answer_plain: 100000000 becomes 99999999": STEPS,
    **{f"alpha_cmd:HasKept {kept}: arguments 1 and 2 change places": KEPT for kept in ("nothing", "file", "spoilt")},
    "alpha_image:FieldsFit filled: filled is left out": FILLED,
    "alpha_image:FieldsFit filled: 16777216 becomes 16777217": FILLED,
    "alpha_cmd:ShowsPlan: part 2 is left out": PROVED,
    "alpha_cmd:ReplaysFiles runs: runs is left out": PLAYED, "alpha_cmd:ReplaysFiles alike: alike is left out": PLAYED,
    "alpha_cmd:HasRecorded within: within is left out": GOOD, "alpha_cmd:RecordedByReads most: most is left out": USED,
    "alpha_cmd:SessionOnReplies most: most is left out": SCRIPT,
    **{f"alpha_image:FieldsFit words: {change}": ABOVE
       for change in ("part 3 is left out", "◌≤◌ becomes ◌<◌ (2)", "◌+◌ becomes ◌-◌", "◌*◌ becomes ◌+◌", "4 becomes 3",
                      "2 becomes 3", "30 becomes 31")},
    **{f"alpha_image:FieldsFit words: {change}": EMPTY for change in ("part 1 is left out", "◌<◌ becomes ◌≤◌")},
    "alpha_imprecise:choice_of: 0 becomes 1": UNSEEN,
    "alpha_imprecise:choice_of: 0 becomes 1 (2)": UNSEEN,
    "alpha_imprecise:choice_of: false becomes true": UNSEEN,
    "alpha_imprecise:choice_of Triggered: false becomes true": TRIGGER,
    "alpha_imprecise:choice_of Triggered: false becomes true (2)": TRIGGER,
    "alpha_imprecise:triggered: 0 becomes 1": PLACED,
    "alpha_imprecise:imprecise: 0 becomes 1": STARTS,
    "alpha_replay:run_fault: arguments 2 and 3 change places": FIRST,
    **{f"{name}: arguments 1 and 2 change places{n}": ALIKE
       for name in ("alpha_request:is_given Some", "alpha_request:name_of", "alpha_debug:command_without_step",
                    "alpha_debug:command_alone", "alpha_debug:with_number", "alpha_debug:with_range")
       for n in ("", *(f" ({n})" for n in range(2, 13)))},
    "alpha_shadow:ExposedIn below: ◌<◌ becomes ◌≤◌": BEHIND,
    "alpha_shadow:Holds SameDestination: part 2 is left out": ALONE,
    **{f"alpha_table:{one}_{of}: 25 becomes 26": EVEN for one in ("fetch", "jump", "misc", "pal")
       for of in ("in", "form")},
    **{f"alpha_table:{one}_{of}: 31 becomes 30": BRANCH for one in ("fetch", "jump", "misc") for of in ("in", "form")},
    **{f"alpha_table:{name}: arguments 1 and 2 change places{n}": FORMS
       for name in ("class_in", "decoded") for n in ("", *(f" ({n})" for n in range(2, 7)))},
    "alpha_table:pal_in: 26 becomes 25": NUMBER,
    **{f"alpha_values:result_of {op}: w32 becomes w64 ({n})": LOW for op in LONGWORDS for n in (2, 3)},
    **{f"alpha_values:result_of {op}: 8 becomes 9": BYTES for op in ("Extql", "Extqh", "Insql", "Insqh", "Mskql")},
}
