"""What a repair puts in the place of each /V word of a text, and of which it leaves as they are."""
from collections import namedtuple

from . import flow, gas, instructions, liveness, sameness, steps, table

# Registers that the calling standard lets a function spoil and that hold no arguments, in the order in which they are
# tried, and those that are tried behind them.
SPARE = (28, 22, 23, 24, 25, 8, 7, 6, 5, 4, 3, 2, 1, 0, 21, 20, 19, 18, 17, 16)
SLOT = 16
# The change of a /V word: the lines that stand for it, and the register through which its result goes. `is_kept` says
# that the register's value is kept in the stack meanwhile.
Change = namedtuple("Change", "lines register is_kept")


class Repair:
    """The changes of a text's /V words: `changes` by place, `had` with the places that have a barrier, and `left` with
    the reasons why others are as they were. `kind` says how the moves are written: for GNU as, or for `asm`."""

    def __init__(self, text, asked=None, is_aside=False):
        self.text, self.code, self.asked, self.is_aside = text, text.code, asked, is_aside
        self.returns = self.code.returns()
        self.live = liveness.Liveness(self.code)
        self.locked = flow.locked(self.code)
        self.changes, self.had, self.left = {}, set(), {}
        for place, step in enumerate(self.code.steps):
            if step.insn.kind == table.TRIGGER:
                self.look_at(place, step)

    def look_at(self, place, step):
        """Decides of a /V word."""
        if place not in self.code.reached:
            self.left[place] = "nothing leads there, so it may be data"
            return
        destination = step.word & 31
        needs_other = destination == 31 or step.insn.uses >> destination & 1
        if not needs_other and self.has_barrier(place):
            self.had.add(place)
        elif self.is_aside and place in self.locked:
            self.left[place] = "lies between a locked load and its conditional store, where no branch may be"
        elif not needs_other:
            self.changes[place] = self.change_through(place, None)
        else:
            self.through_another(place, step, destination)

    def has_barrier(self, place):
        behind = self.code.after[place]
        return behind is not None and self.code.steps[behind].insn.kind == table.BARRIER

    def spelled(self, place, register=None):
        """A /V word, with another destination where one is given."""
        statement = self.text.statement(place)
        if register is None:
            return f"{statement.name} {','.join(statement.operands)}"
        # With two operands the first one is the destination too, but for those that negate.
        is_short = len(statement.operands) == 2 and not statement.name.startswith("neg")
        ahead = statement.operands if is_short else statement.operands[:-1]
        return f"{statement.name} {','.join([*ahead, f'${register}'])}"

    def through_another(self, place, step, destination):
        """The result goes through a register that nobody reads, or through one that is kept in the stack."""
        free = self.free_at(place)
        if free:
            self.changes[place] = self.change_through(place, free[0])
            return
        taken = step.insn.uses | table.bit(destination)
        why = self.why_not_kept(place, taken)
        if why is not None:
            self.left[place] = why
            return
        register = next(other for other in SPARE if not taken >> other & 1)
        lines = self.change_through(place, register).lines
        self.changes[place] = Change([f"lda $30,-{SLOT}($30)", f"stq ${register},0($30)", *lines,
                                      f"ldq ${register},0($30)",
                                      f"lda $30,{SLOT}($30)"], register, True)

    def free_at(self, place):
        """Of the registers that are tried those that a /V word doesn't name and nothing behind it reads before they are
        set."""
        step, tried = self.code.steps[place], SPARE if self.asked is None else (self.asked,)
        taken = step.insn.uses | table.bit(step.word & 31) | self.live.behind[place]
        return [register for register in tried if not taken >> register & 1]

    def change_through(self, place, register):
        """The change by a barrier, with a register for the result, or None where that goes to its destination at
        once."""
        destination = self.code.steps[place].word & 31
        move = [] if register is None or destination == 31 else [self.move(register, destination)]
        return Change([self.spelled(place, register), "trapb", *move], register, False)

    def move(self, source, target):
        return f"bis $31,${source},${target}" if self.is_aside else f"mov ${source},${target}"

    def why_not_kept(self, place, taken):
        """Why no register can be kept in the stack meanwhile, or None."""
        if self.asked is not None:
            return f"${self.asked} may still be read there, or is one of its own"
        if place in self.locked:
            return ("no register is free, and it lies between a locked load and its conditional store, where no other "
                    "access may be")
        if taken >> steps.SP & 1:
            return "no register is free, and it names $30"
        why = sameness.why_no_stack(self.returns, place)
        if why is None:
            return None
        told = [f"line {self.text.statement(other).line}" for other in sorted(self.returns.below)]
        return "no register is free, and " + (why % tuple(told[:1]) if "%s" in why else why)


def look_at_triggers(path, statements, faults):
    """Refuses /V words that can't be read."""
    for statement in statements:
        if instructions.TRIGGER.match(statement.name) and steps.of_statement(statement).word is None:
            faults.add(path, statement.line, why_unread(statement))


def why_unread(statement):
    """What is wrong with the operands of a /V word."""
    for text in statement.operands:
        try:
            if text.startswith("$"):
                instructions.register(text)
            elif gas.number_of(text) is None or not 0 <= gas.number_of(text) <= 255:
                return f"`{text}` is no number from 0 to 255"
        except instructions.Untold as untold:
            return str(untold)
    return f"`{statement.name}` with {len(statement.operands)} operands"
