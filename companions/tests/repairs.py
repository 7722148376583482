"""shadowfix, and the command `fix`, on the programs that a compiler made."""
import os

from parts import program
from .helpers import ASKED, PROGRAMS, assembled, companion, data, needs_program, read, runs_alike, want, write


@needs_program
def test_real_programs_are_refused_repaired_and_run(folder):
    asked = program.Program(ASKED)
    wanted = {"sum": 12, "wc": 5, "sort": 26, "primes": 17}
    for name in PROGRAMS:
        made = assembled(asked, folder, name, data(f"{name}.s"))
        out, _ = companion("allbroken", made, "--counts", status=3)
        want(out.split("\n")[0], f"{wanted[name]} of {wanted[name]} /V words are broken", name)
        fixed = os.path.join(folder, f"{name}.fixed.s")
        companion("shadowfix", data(f"{name}.s"), "-o", fixed)
        again, _ = companion("shadowfix", fixed)
        want(again, read(fixed), f"{name}: a second repair")
        made = assembled(asked, folder, f"{name}.fixed", fixed)
        want(asked.verdict(made), None, name)
        runs_alike(asked, name, made)


@needs_program
def test_fix_puts_back_the_barriers_of_real_programs(folder):
    """Without any one of its barriers, and without all of them, a repaired program is fixed to one that is accepted and
    runs alike; where a barrier wasn't needed the source comes back as it is."""
    asked = program.Program(ASKED)
    for name in PROGRAMS:
        repaired = os.path.join(folder, f"{name}.fixed.s")
        companion("shadowfix", data(f"{name}.s"), "-o", repaired)
        assembled(asked, folder, name, repaired)
        lines = read(os.path.join(folder, f"{name}.as"), "rb").splitlines(keepends=True)
        barriers = [n for n, line in enumerate(lines) if line.split(b"#")[0].strip() == b"trapb"]
        for number in barriers:
            fixed_again(asked, folder, b"".join(lines[:number] + lines[number + 1:]), 1)
        bare = b"".join(line for n, line in enumerate(lines) if n not in barriers)
        runs_alike(asked, name, fixed_again(asked, folder, bare, len(barriers)))


def fixed_again(asked, folder, source, most):
    """The image of a source once it is fixed: by at most so many lines, each a barrier without which it is refused."""
    path, out, made = (os.path.join(folder, name) for name in ("bare.as", "barred.as", "barred.img"))
    write(path, source)
    want(asked.call("fix", path, out), (0, b"", ""), "fix")
    given, made_of = source.splitlines(), read(out, "rb").splitlines()
    added = added_lines(given, made_of)
    want(len(added) <= most, True, f"{len(added)} barriers are added")
    want({made_of[n] for n in added} <= {b"trapb"}, True, "another line is added")
    for without in [None, *added]:
        write(path, b"\n".join(line for n, line in enumerate(made_of) if n != without) + b"\n")
        want(asked.call("asm", path, made), (0, b"", ""), "asm")
        want(asked.verdict(made) is None, without is None, f"the verdict without line {without}")
    want(asked.call("asm", out, made), (0, b"", ""), "asm")
    return made


def added_lines(old, new):
    """The numbers of the lines that the new text has more than the old one."""
    numbers, behind = [], 0
    for number, line in enumerate(new):
        if behind < len(old) and line == old[behind]:
            behind += 1
        else:
            numbers.append(number)
    want(behind, len(old), "lines are lost")
    return numbers


def test_shadowfix_repairs_and_says_what_it_cannot(folder):
    path = os.path.join(folder, "a.s")
    cases = [("a:\taddqv $1,$2,$1; nop # x\n", "a:\taddqv $1,$2,$28\n\ttrapb\n\tmov $28,$1\n\tnop # x\n"),
             ("\taddq/v $1,$2,$3\n", "\taddq/v $1,$2,$3\n\ttrapb\n"),
             ("\taddq/v $1,$2,$3\nb:\ttrapb\n", "\taddq/v $1,$2,$3\nb:\ttrapb\n"),
             ("\tsubqv $1,4\r\n", "\tsubqv $1,4,$28\r\n\ttrapb\r\n\tmov $28,$1\r\n"),
             ("\tmullv $1,$2,$31\n", "\tmullv $1,$2,$28\n\ttrapb\n"),
             ("\tnegq/v $1,$1\n", "\tnegq/v $1,$28\n\ttrapb\n\tmov $28,$1\n"),
             ("# addqv $1,$1,$1\n", "# addqv $1,$1,$1\n"), ("\taddlv $31,$31,$4\n", "\taddlv $31,$31,$4\n\ttrapb\n")]
    cases = [(f"{text}\tret", f"{wanted}\tret") for text, wanted in cases]
    # Of what runs off its end everything may be read, so a register is kept in the stack.
    cases.append(("\tnegq/v $1,$1",
                  "\tlda $30,-16($30)\n\tstq $28,0($30)\n\tnegq/v $1,$28\n\ttrapb\n\tmov $28,$1\n\tldq "
                  "$28,0($30)\n\tlda $30,16($30)"))
    for text, wanted in cases:
        with open(path, "w", encoding="ascii", newline="") as file:
            file.write(text)
        want(companion("shadowfix", path)[0], wanted, text)
    for text, line, said in [("\taddqv $1,$2,$1\n\tbeq $1,.-4\n", 2, "label"),
                             ("\taddqv $1,$2,$f1\n", 1, "floating")]:
        with open(path, "w", encoding="ascii") as file:
            file.write(text)
        _, notes = companion("shadowfix", path, "-o", path, status=1)
        want((f"a.s:{line}:" in notes, said in notes, read(path)), (True, True, text), notes)
