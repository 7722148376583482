"""Code that stands at high addresses; and system calls of many numbers, and of bytes that a text would have
otherwise."""
from . import blocks, late
from .blocks import Blocks, waits

SUM, OVERFLOWS = late.SUM, late.OVERFLOWS
CODE = 0x3FFC0000


def high():
    """Every address that is told or left, of code whose addresses have 30 bits."""
    made = Blocks("high", "Code that ends close below the stack: each address that is told or left has 30 bits.",
                  code=CODE)
    ends = {"bpt": "bpt", "bugchk": "bugchk", "gentrap": "gentrap", "align": "ldq $5,1($9)", "access": "stq $5,0($31)",
            "code": "stl $5,0($8)", "jump": "jmp $31,($6)"}
    for name, line in ends.items():
        made.add(name, ["nop", line])
        made.run(name, name, f"`{line}` at a high address", {6: CODE - 8})
    made.add("sum", [SUM, "trapb", "br dump"])
    for completion in late.ALL:
        made.run(f"sum-{completion}", "sum", f"an overflow at a high address, by {completion}", OVERFLOWS,
                 completion=completion)
    for name in ("br", "bsr", *late.JUMPS):
        turn = f"{name} $5,($7)" if name in late.JUMPS else f"{name} $5,.+12"
        made.add(name, ["lda $7,16($8)", turn, "nop", "br dump", "bsr $6,dump"])
        made.run(name, name, f"`{turn}` from a high address to one: what it leaves", {})
    for name in late.LOADS:
        made.add(f"load_{name}", [f"{name} $5,0($7)", f"{name} $6,8($7)", "br dump"])
        made.run(f"load-{name}", f"load_{name}", f"`{name}` of code at a high address", {7: CODE})
    made.add("flag", ["ldq_l $5,0($7)", "lda $6,7($31)", "stq_c $6,0($7)", "br dump"])
    made.run("flag", "flag", "a conditional store to the code, for which the lock flag is set", {7: CODE})
    reports(made)
    return made


def reports(made):
    """Reports at high addresses, and far behind the word that is completed."""
    made.add("report", [SUM, *["addq $4,$6,$5"] * 6, SUM, "trapb", "br dump"])
    made.add("lost", [SUM, "br $31,.+4", "trapb"])
    made.add("out", [SUM, "jmp $31,($6)"])
    for count in (0, 1, 6, 7):
        made.late(f"report-{count}", "report", f"a report at a high address, behind {count} words", OVERFLOWS,
                  [0x77, *waits(*[(5, 0)] * count), 0, 0x78], late.ALL)
    made.late("lost", "lost", "a lost trap at a high address", OVERFLOWS, [0x77, *waits((0, 0))], late.ALL)
    for name, address in (("before", CODE - 4), ("zero", 0), ("low", 0x10000)):
        made.late(f"out-{name}", "out", f"a trap that is lost at {address:#x}, outside the code",
                  OVERFLOWS | {6: address}, [0x77, *waits((0, 0))])


# Bytes that are changed, or end something, where they are taken for a text.
TEXTS = {"lines": b"one\ntwo\r\nthree\rfour\n\rfive\r\r\n\n\r\n", "end": b"before\x1aand\x04behind\x03\x00\x1a",
         "marked": b"\xef\xbb\xbfa mark of order\xff\xfe\xfe\xff", "wide": "häßlich € \U0001F600".encode(),
         "bad": b"\x80\xc0\xaf\xed\xa0\x80\xf5\xff", "zero": b"a string\0", "zeros": bytes(24), "first": b"\0a string",
         "blanks": b" \t\v\f leading and trailing \t ", "marks": b"%s%n%%\\n\\x00\"'$(x)`;",
         "all": bytes(range(256)), "down": bytes(range(255, -1, -1)), "twice": b"\r\n\r\n\x1b[31m\b\x7f\a"}


def texts():
    """Reads and writes of bytes that a text would have otherwise."""
    made = Blocks("calls-texts",
                  "A read of $4 bytes into the cells, and a write of them; then both again, of $5 bytes.")
    one = ["lda $0,3($31)", "clr $16", "lda $17,64($9)", "mov {},$18", "callsys", "s4addq $19,$7,$7", "mov $0,$18",
           "lda $0,4($31)", "lda $16,1($31)", "callsys"]
    made.add("echo", [*[line.format("$4") for line in one], "mov $0,$6", *[line.format("$5") for line in one],
                      "br dump"])
    for name, text in TEXTS.items():
        for how, first, second in (("whole", len(text), 16), ("parts", (len(text) + 1) // 2, len(text)),
                                   ("more", 300, 300)):
            made.run(f"{name}-{how}", "echo",
                     f"a read of {first} and one of {second} bytes, of {len(text)} that a text would have otherwise, "
                     f"{name}", {4: first, 5: second})
            made.rows[-1] = made.rows[-1]._replace(given=made.rows[-1].given + text)
    return made


def numbers():
    """System calls of many numbers, none of which there is."""
    made = Blocks("calls-numbers",
                  "The system calls from number $1 to $2 with descriptor $3: $5 counts those that answer 78, and $6 "
                  "adds up the others.")
    made.add("each", ["again:", "mov $1,$0", "mov $3,$16", "lda $17,64($9)", "lda $18,8($31)", "lda $19,77($31)",
                      "callsys", "cmpeq $0,78,$4", "addq $5,$4,$5", "cmpeq $19,1,$7", "addq $5,$7,$5",
                      "cmoveq $4,$1,$6", "lda $1,1($1)", "cmple $1,$2,$4", "bne $4,again", "br dump"])
    for descriptor in (0, 1):
        for first, last in ((5, 1_500), (-1_500, 0), (4_000, 4_300), (0x7FFFFF80, 0x80000080)):
            made.run(f"{descriptor}-{first & blocks.MASK:x}", "each",
                     f"the calls from {first} to {last} with descriptor {descriptor}, of which there is none",
                     {1: first, 2: last, 3: descriptor})
            made.rows[-1] = made.rows[-1]._replace(given=made.rows[-1].given + b"eight by")
    return made


def seen():
    """What the trigger left, as a branch behind it sees it: the place of the lost trap tells which way it went."""
    made = Blocks("late-seen", "A branch by what a trigger left, which decides where its trap is lost.")
    for name, (first, second) in late.OVERFLOWING.items():
        for branch in late.BRANCHES:
            label = f"{name.replace('/', '_')}_{branch}"
            made.add(label, [f"{name} $4,$6,$5", f"{branch} $5,.+12", "nop", "trapb", "trapb"])
            for drawn in (1 << 31, 1 << 32, 1 << 63 | 1, 0xFFFFFFFF, 0):
                made.late(f"{label.replace('_', '-')}-{drawn:x}", label,
                          f"`{branch}` by what the trigger `{name}` left, {drawn:#x}", {4: first, 6: second},
                          [drawn, *waits((5, 0), (6, 0))], late.ALL if drawn == 1 << 31 else ("wrap",))
    return made


def families():
    return [high(), texts(), numbers(), seen()]
