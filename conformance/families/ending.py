"""Runs that put something and then end, by each end and by their last step; registers that are alike where an access
faults; each register as what a link, a load or a conditional store leaves; and much input."""
from . import blocks, late, runs
from .blocks import CELLS, Blocks, Row

FIRST = 15  # so many steps are made before the first word of a block
MUCH, SHOWN = 8_388_608, 2_200_000


def put(count):
    return ["lda $0,4($31)", "lda $16,1($31)", "lda $17,64($9)", f"lda $18,{count}($31)", "callsys"]


def ends():
    """Each end behind a write, with the steps that it needs, one less and one more."""
    made = Blocks("ends-put", "A write, and then each end, by as many steps as it needs, one less and one more.")
    words = {"bpt": ["bpt"], "bugchk": ["bugchk"], "gentrap": ["gentrap"],
             "exit": ["mov $6,$16", "lda $0,1($31)", "callsys"],
             "fetch": ["jmp $31,($6)"], "align": ["ldq $5,1($9)"], "access": ["stq $5,0($31)"],
             "overflow": [late.SUM], "lost": [late.SUM, "br $31,.+4", "trapb"]}
    for name, code in words.items():
        for count in (1, 16, 300):
            label = f"{name}_{count}"
            made.add(label, [*put(count), *code])
            needed = FIRST + len(put(count)) + len(code) + (name == "fetch")
            operands = late.OVERFLOWS | {6: 1 << 40}
            if name == "lost":
                made.late(f"{name}-{count}", label, f"a write of {count} bytes, and a lost trap", operands,
                          [0x77, *blocks.waits((0, 0))], steps=needed - 2)
                continue
            for steps in (needed - 1, needed, needed + 1):
                made.run(f"{name}-{count}-{steps - needed + 1}", label,
                         f"a write of {count} bytes, and the end {name} with {needed} steps of at most {steps}",
                         operands, steps=steps, completion="stop" if name == "overflow" else "wrap")
    made.add("falls", ["addq $4,$6,$5"])
    for steps in (FIRST, FIRST + 1, FIRST + 2):
        made.run(f"falls-{steps}", "falls", f"the code's end is reached by {FIRST + 1} steps of at most {steps}", {},
                 steps=steps)
    return made


def alike():
    """Accesses that fault whose two registers are one."""
    made = Blocks("faults-alike", "Accesses that fault, whose two registers are one: the address that is told.")
    for name in runs.ACCESSES:
        for number in (8, -16):
            label = f"{name}_{number}".replace("-", "m")
            made.add(label, [f"{name} $6,{number}($6)", "br dump"])
            for how, address in {"nowhere": 1 << 29, "high": 1 << 63 | CELLS, "odd": CELLS + 81}.items():
                made.run(f"{name}-{number}-{how}", label, f"`{name} $6,{number}($6)` with $6 = {address:#x}",
                         {6: address})
    return made


def registers():
    """Each register as the destination of each kind of word."""
    made = Blocks("registers", "Each register, as links, loads and conditional stores leave it.")
    for register in range(31):
        if register == 9:
            continue
        one = f"${register}"
        made.add(f"to_{register}",
                 [f"br {one},.+4", f"stq {one},64($9)", f"bsr {one},.+4", f"stq {one},72($9)", f"lda {one},77($31)",
                  f"stq {one},80($9)", f"ldq_l {one},0($9)", f"stq {one},88($9)", f"stq_c {one},8($9)",
                  f"stq {one},96($9)", f"br {one},.+4", f"lda {one},12({one})", f"jsr {one},({one})", "nop",
                  f"stq {one},104($9)", f"mulq {one},3,{one}", f"stq {one},112($9)", f"sextb {one},{one}",
                  f"cmovne {one},{one},{one}", f"stq {one},120($9)", "br dump"])
        made.run(f"to-{register}", f"to_{register}",
                 f"${register} as the destination of branches, LDA, a locked load, a conditional store, a jump, a "
                 f"product and a conditional move", late.OVERFLOWS)
    return made


def selves():
    """Turns to themselves, and to address 0, and hints of jumps."""
    made = Blocks("turns-self", "Branches and jumps to themselves, which go on until the steps are made; and hints.")
    for name in (*late.BRANCHES, "br", "bsr", *late.JUMPS):
        is_jump = name in late.JUMPS
        made.add(name, [f"{name} $5,($8)" if is_jump else f"{name} $6,.+0", "br dump"])
        for value in (0, 1, 1 << 63):
            made.run(f"{name}-{value:x}", name, f"`{name}` to itself with $6 = {value:#x}, by 20 steps", {6: value},
                     steps=20)
        if is_jump:
            made.add(f"{name}_none", [f"{name} $31,($31)"])
            made.run(f"{name}-none", f"{name}_none", f"`{name} $31,($31)` goes to address 0", {})
            for hint in (0, 1, 4_096, 8_191, 8_192, 16_383):
                made.add(f"{name}_hint_{hint}", [f"{name} $5,($6),{hint}"])
                made.run(f"{name}-hint-{hint}", f"{name}_hint_{hint}",
                         f"`{name}` with the hint {hint}, which means nothing",
                         {6: made.places["dump"]})
    return made


def bytes_of():
    """Each load and store at each place of 64 bytes, so that a byte beside shows."""
    made = Blocks("bytes", "Each load and store at each place of 64 bytes, from the first on and from the last.")
    for name in runs.ACCESSES:
        places = list(range(64, 128, runs.size_of(name)))
        for how, order in (("up", places), ("down", places[::-1])):
            if name in late.LOADS:
                lines = [line for at in order for line in (f"{name} $7,{at}($9)", "mulq $6,31,$6", "addq $6,$7,$6")]
            else:
                lines = [line for at in order for line in ("mulq $5,61,$5", "addq $5,17,$5", "mov $5,$7",
                                                           *([f"ldq_l $10,{at // 8 * 8}($9)"] if "_c" in name else []),
                                                           f"{name} $7,{at}($9)")]
            label = f"{name}_{how}"
            made.add(label, [*lines, "br dump"])
            made.run(f"{name}-{how}", label, f"`{name}` at each place of 64 bytes, {how}", {5: 0x8877665544332211})
            # The same with all bits otherwise, so that each place has a byte of either sign.
            turned = [line for at in range(64, 128, 8)
                      for line in (f"ldq $10,{at}($9)", "not $10,$10", f"stq $10,{at}($9)")]
            made.add(f"{label}_not", [*turned, *lines, "br dump"])
            made.run(f"{name}-{how}-not", f"{label}_not",
                     f"`{name}` at each place of 64 bytes whose bits are turned, {how}", {5: 0x778899AABBCCDDEE})
    return made


MOST = f"""# Reads {MUCH:,} bytes by one call, and writes {SHOWN:,} of them.
        .level 2
        .segment 0x10000000
        .zero {MUCH + 100}
        .code
start:  ldah $9,0x1000($31)
        lda $0,3($31)
        clr $16
        mov $9,$17
        ldah $18,{MUCH + 1 >> 16}($31)
        lda $18,1($18)
        callsys
        mov $0,$20
        trapb
        lda $0,4($31)
        lda $16,1($31)
        ldah $18,{SHOWN + 32_768 >> 16}($31)
        lda $18,{(SHOWN + 32_768) % 65_536 - 32_768}($18)
        callsys
        trapb
        s4addq $20,$0,$16
        lda $0,1($31)
        callsys
        .entry start
"""


def much():
    """A read of 8 MiB, and a write of 2."""
    given = bytearray(MUCH)
    for at in range(0, MUCH, 4_093):
        given[at] = at // 4_093 % 255 + 1
    for name, count in (("most", MUCH), ("less", 1_048_577)):
        yield Row(f"reads-most.{name}", "run", "reads-most", "wrap", blocks.STEPS, [bytes(given[:count])], None,
                  about=f"a read of 8,388,609 bytes, of which {count:,} are there, and a write of {SHOWN:,}")


def families():
    return [ends(), alike(), registers(), selves(), bytes_of()]
