"""Images that give a quadword for each of their lines, with a row of three quadwords in $1 to $3 before it."""
from . import late

PER_LINE = 6
READ = ["ldah $9,0x1000($31)", "next: lda $0,3($31)", "clr $16", "mov $9,$17", "lda $18,24($31)", "callsys",
        "subq $0,24,$4", "bne $4,end",
        "ldq $1,0($9)", "ldq $2,8($9)"]


def source(what, lines, level=1, front=(), back=()):
    """A program that reads three quadwords, and writes what each line leaves in $3, until the input ends. `lines` has a
    text for each, and its words; `front` and `back` have further segments."""
    said = [f"# {what} With a, b and c of each 24 bytes of the input in $1, $2 and $3, a quadword of output for each "
            f"of these lines:"]
    texts = [text for text, _ in lines]
    said += ["# " + "; ".join(texts[n:n + PER_LINE]) for n in range(0, len(texts), PER_LINE)]
    body = []
    for number, (_, words) in enumerate(lines):
        body += (["ldq $3,16($9)", *words, f"stq $3,{24 + 8 * number}($9)"]
                 + (["trapb"] if any("/v" in word for word in words) else []))
    size = 8 * len(lines)
    calls = ["lda $0,4($31)", "lda $16,1($31)", "lda $17,24($9)", f"lda $18,{size}($31)", "callsys", "br next",
             "end: clr $16", "lda $0,1($31)", "callsys"]
    head = [f"        .level {level}", *front, "        .segment 0x10000000"] if level == 2 else ["        .data"]
    code = [word if ": " in word else f"        {word}" for word in [f"start: {READ[0]}", *READ[1:], *body, *calls]]
    return ("\n".join([*said, *head, f"        .zero {24 + size}", *back, "        .code", *code,
                       "        .entry start"]) + "\n")


def forms(names):
    """Each operate instruction with registers that are alike, with R31, and with literals of eight bits."""
    for name in names:
        if name == "implver":
            yield f"{name} $3", [f"{name} $3"]
            continue
        unary, count = name in late.UNARY, name in ("ctpop", "ctlz", "cttz")
        lines = [f"{name} $3,$3", f"{name} $31,$3"] if unary else [f"{name} {registers},$3" for registers in
                                                                   ("$3,$2", "$1,$3", "$3,$3", "$1,$1", "$31,$2",
                                                                    "$1,$31")]
        literals = [] if count else [f"{name} {'' if unary else '$1,'}{literal},$3" for literal in (0, 127, 128, 255)]
        for line in lines + literals:
            yield line, [line]
        zero = late.operate_line(name, "$1", "$2", "$31")
        yield zero, [zero, "bis $31,$31,$3"]


def literals():
    """Each number by which a shift or a byte instruction goes on, as a literal."""
    for name in ("sll", "srl", "sra"):
        for number in range(64):
            yield f"{name} $1,{number},$3", [f"{name} $1,{number},$3"]
    for name in late.operates():
        if name[:3] in ("ext", "ins", "msk"):
            for number in range(8):
                yield f"{name} $1,{number},$3", [f"{name} $1,{number},$3"]
        elif name in ("zap", "zapnot"):
            for number in (*(1 << bit for bit in range(8)), *(255 - (1 << bit) for bit in range(8))):
                yield f"{name} $1,{number},$3", [f"{name} $1,{number},$3"]


def branches():
    """Each branch, taken and not: 1 where it is taken."""
    for name in late.BRANCHES:
        yield f"{name} $1,.+8", [f"lda $3,1($31)", f"{name} $1,.+8", "clr $3"]
        yield f"{name} $31,.+8", [f"lda $3,1($31)", f"{name} $31,.+8", "clr $3"]
        # Forward over a branch that goes back, which is run where the first one is taken.
        yield f"{name} $1,.-8", ["lda $3,2($31)", "br .+12", "lda $3,1($31)", "br .+8", f"{name} $1,.-8"]


def addresses():
    """What LDA and LDAH give by their displacement."""
    numbers = [0, 1, -1, 2, 4, 8, 16, 32, 64, 128, 256, 512, 1_024, 2_048, 4_096, 8_192, 16_384, 32_767, -32_768,
               -16_384, -2]
    for name in ("lda", "ldah"):
        for number in numbers:
            yield f"{name} $3,{number}($1)", [f"{name} $3,{number}($1)"]
        yield f"{name} $3,-5($31)", [f"{name} $3,-5($31)"]
        yield f"{name} $3,7($3)", [f"{name} $3,7($3)"]
        yield f"{name} $31,7($1)", [f"{name} $31,7($1)", "bis $31,$31,$3"]


def bases():
    """Loads whose base is the register that they load, and all sizes; and what R31 takes."""
    for name in (*late.LOADS, "lda", "ldah"):
        yield f"{name} $3,8($3)", ["mov $9,$3", f"{name} $3,8($3)"]
    for name in ("stl_c", "stq_c"):
        yield f"{name} $3,0($3) behind a locked load", ["ldq_l $5,0($9)", "mov $9,$3", f"{name} $3,0($3)"]
        yield f"{name} $3,0($3) without one", ["mov $9,$3", f"{name} $3,0($3)"]
        yield f"the memory behind {name} $3", ["ldq_l $5,0($9)", f"{name} $3,0($9)", "ldq $3,0($9)"]
        yield f"the memory behind {name} $31", ["ldq_l $5,0($9)", f"{name} $31,0($9)", "ldq $3,0($9)"]
    for name in late.STORES[:5]:
        yield f"the memory behind {name} $3", ["stq $1,0($9)", f"{name} $3,0($9)", "ldq $3,0($9)"]
        yield f"the memory behind {name} $31", ["stq $1,0($9)", f"{name} $31,0($9)", "ldq $3,0($9)"]
        yield f"the memory behind {name} $9 over its own base", ["stq $1,0($9)", f"{name} $9,0($9)", "ldq $3,0($9)"]
        yield f"the stack behind {name} $31", ["stq $1,-8($30)", f"{name} $31,-8($30)", "ldq $3,-8($30)"]
    for name in late.LOADS:
        yield f"{name} $31,0($9)", [f"{name} $31,0($9)", "bis $31,$31,$3"]
    for name in ("br", "bsr"):
        yield f"{name} $3,.+4", [f"{name} $3,.+4"]
        yield f"{name} $31,.+4", [f"{name} $31,.+4", "bis $31,$31,$3"]
    for name in late.JUMPS:
        yield (f"{name} $3,($5) to the next word but one",
               ["br $5,.+4", "lda $5,16($5)", f"{name} $3,($5)", "clr $3", "nop"])
        yield (f"{name} $3,($3) by the register that it sets",
               ["br $3,.+4", "lda $3,19($3)", f"{name} $3,($3)", "clr $3", "nop"])
        yield (f"{name} $31,($5),8191",
               ["br $5,.+4", "lda $5,16($5)", f"{name} $31,($5),8191", "clr $3", "addq $31,$3,$3"])


def flags(base="$9"):
    """Whether the lock flag is still set behind each kind of word: 1 where it is."""
    lines = late.with_destination()
    for name in ("stl_c", "stq_c", *late.JUMPS):
        del lines[name]
    lines |= ({name: f"{name} $1,0({base})" for name in late.STORES[:5]}
              | {name: f"{name} $31,.+4" for name in late.BRANCHES})
    lines |= ({name: name for name in ("mb", "wmb", "trapb", "excb", "imb", "rdunique", "wrunique", "callsys")}
              | {"fetch": "fetch 0($9)", "fetch_m": "fetch_m 0($9)"})
    for name, line in lines.items():
        before = ["lda $4,5($31)", "lda $6,3($31)", "mov $9,$7"] + (["lda $0,9($31)"] if name == "callsys" else [])
        if "ld" in name and name not in ("lda", "ldah"):
            line = line.replace("72($9)", "24($9)")
        for told in (line, line.replace("$5", "$31")) if "$5" in line else (line,):
            yield (f"stq_c behind {told}",
                   [*before, f"ldq_l $5,8({base})", told, "lda $3,7($31)", f"stq_c $3,0({base})"])
    for name in (*late.STORES[:5], *late.LOADS[:5]):
        for at in (0, 8, 16):
            line = f"{name} {'$1' if name in late.STORES else '$5'},{at}({base})"
            yield (f"stq_c behind {line}, which ldq_l had",
                   [f"ldq_l $5,{at}({base})", line, "lda $3,7($31)", f"stq_c $3,{at}({base})"])
    for name in (*late.STORES[:5], *late.LOADS[:5]):
        line = f"{name} $1,-8($30)" if name in late.STORES else f"{name} $4,0($27)"
        yield f"stq_c behind {line}", [f"ldq_l $5,8({base})", line, "lda $3,7($31)", f"stq_c $3,0({base})"]
    for name, words in (("a write", ["lda $0,4($31)", "lda $16,1($31)", "clr $18"]),
                        ("a read", ["lda $0,3($31)", "clr $16", "clr $18"]),
                        ("a write elsewhere", ["lda $0,4($31)", "lda $16,2($31)"])):
        yield f"stq_c behind {name}", [*words, f"ldq_l $5,8({base})", "callsys", "lda $3,7($31)", f"stq_c $3,0({base})"]
    for first in ("ldl_l", "ldq_l"):
        for last in ("stl_c", "stq_c"):
            for at, other in ((0, 8), (8, 0), (0, 16), (16, 8), (0, 32)):
                yield (f"{last} of {other} behind {first} of {at}",
                       [f"{first} $5,{at}({base})", "lda $3,7($31)", f"{last} $3,{other}({base})"])
            yield (f"a second {last}",
                   [f"{first} $5,0({base})", f"{last} $4,0({base})", "lda $3,7($31)", f"{last} $3,0({base})"])
            yield f"{last} without {first}", ["lda $3,7($31)", f"{last} $3,0({base})"]
            yield (f"{last} behind {first} and one of another block",
                   [f"{first} $5,0({base})", f"{last} $4,32({base})", "lda $3,7($31)", f"{last} $3,0({base})"])
            yield (f"{last} of the second of two {first}",
                   [f"{first} $5,0({base})", f"{first} $5,16({base})", "lda $3,7($31)", f"{last} $3,0({base})"])
    for name in ("addl/v", "subl/v", "mull/v", "addq/v", "subq/v", "mulq/v"):
        yield (f"stq_c behind {name} $1,$2",
               [f"ldq_l $5,8({base})", f"{name} $1,$2,$4", "lda $3,7($31)", f"stq_c $3,0({base})"])
        for register, literal in (("$4", 1), ("$31", 1), ("$31", 255)):
            # Each of these overflows, whatever the row is.
            great = ["lda $4,1($31)", "sll $4,63,$4" if "q" in name else "sll $4,31,$4"]
            less = [] if name.startswith("sub") else ["not $4,$4"] if name.startswith("add") else ["srl $4,1,$4"]
            number = literal if not name.startswith("mul") else 255
            yield (f"stq_c behind {name} $4,{number},{register}, which overflows",
                   [*great, *less, f"ldq_l $5,8({base})", f"{name} $4,{number},{register}", "lda $3,7($31)",
                    f"stq_c $3,0({base})"])
