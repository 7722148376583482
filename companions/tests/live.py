"""shadowfix: a register is taken only where nothing that may come reads it, and /V words that are no code are left."""
import os
import shutil
import subprocess

from parts import asides, gas, image, program
from .helpers import ASKED, Lacking, companion, kept, needs_program, read, want, write

SPARE = (28, 22, 23, 24, 25, 8, 7, 6, 5, 4, 3, 2, 1)
# Of each the register that may not be taken: the next read of it is a word that names it twice, or that reads what it
# sets.
NEXT_READS = [("addq $4,$4,$4", 4), ("cmovge $4,$4,$25", 4), ("addl $6,$6,$6", 6), ("addq $28,$28,$28", 28),
              ("xor $22,$22,$22", 22),
              ("cmovge $9,$10,$23", 23), ("stq $24,0($24)", 24), ("lda $25,8($25)", 25), ("jmp $31,($8),0", 8)]


def repaired(folder, text, *words, status=0):
    path, out = os.path.join(folder, "a.s"), os.path.join(folder, "b.s")
    write(path, text.encode())
    _, notes = companion("shadowfix", *words, path, "-o", out, status=status)
    return read(out) if os.path.exists(out) else None, notes


def test_what_the_next_word_reads_is_not_taken(folder):
    for word, register in NEXT_READS:
        # Every other register is set before anything reads it, so that one alone is live.
        sets = "".join(f"\tlda ${other},0($31)\n" for other in (*SPARE, 0, 16, 17, 18, 19, 20, 21) if other != register)
        text = f"\t.ent f\nf:\tsubqv $9,$10,$9\n\t{word}\n{sets}\tret\n\t.end f\n"
        made, notes = repaired(folder, text, "--scratch", str(register), status=3)
        want((made, f"${register} may still be read there" in notes), (text, True), word)
        made, notes = repaired(folder, text)
        want(f"subqv $9,$10,${register}\n" in made, False, word)


def test_a_source_is_no_scratch_register_where_the_result_is_dead(folder):
    text = "\t.ent f\nf:\tmulq/v $2,$8,$2\n\tbis $31,$2,$2\n\tstq $2,0($8)\n\tret\n\t.end f\n"
    made, _ = repaired(folder, text)
    want("mulq/v $2,$8,$28\n\ttrapb\n\tmov $28,$2\n" in made, True, made)
    for register in ("2", "8"):
        want(repaired(folder, text, "--scratch", register, status=3)[0], text, register)


def test_what_a_caller_keeps_over_a_call_is_not_taken(folder):
    """gcc keeps values in registers that a static function isn't known to change, over calls of it."""
    callers = ("\t.globl f\n\t.ent f\nf:\tlda $30,-16($30)\n\tstq $26,0($30)\n\tmov $16,$28\n\tbsr $26,g\n\taddq "
               "$0,$28,$0\n")
    callers += "\tldq $26,0($30)\n\tlda $30,16($30)\n\tret\n\t.end f\n"
    made, _ = repaired(folder, callers + "\t.ent g\ng:\taddqv $16,$17,$16\n\taddq $0,$16,$0\n\tret\n\t.end g\n")
    want("\taddqv $16,$17,$22\n\ttrapb\n\tmov $22,$16\n" in made, True, made)
    # Where nothing shows that the return goes back behind that call, all registers count as read.
    made, _ = repaired(folder, callers
                       + "\t.ent g\ng:\taddqv $16,$17,$16\n\taddq $0,$16,$0\n\tldq $26,0($18)\n\tret\n\t.end g\n")
    want("\tlda $30,-16($30)\n\tstq $28,0($30)\n\taddqv $16,$17,$28\n" in made, True, made)


LISTING = """.codebase 0x10000
.database 0x10000000
.stack 65536
.entry L_10000
.code
L_10000: br $31,L_10008
addq/v $1,$2,$1
L_10008: addq/v $3,$4,$3
bis $31,$3,$16
lda $0,1($31)
callsys
.data
.zero 0
"""


def test_a_word_to_which_nothing_leads_is_left_and_told(folder):
    made, notes = repaired(folder, LISTING, "--aside", status=3)
    want(("\naddq/v $1,$2,$1\n" in made, "L_10008: br $31,fix_1\n" in made), (True, True), made)
    want("a.s:7: what is in no function: `addq/v` at 0000000000010004 is as it was: nothing leads there, so it may be "
         "data" in notes, True, notes)
    # A symbol makes it code, and so does an address of it among the data, for a jump.
    symbols = os.path.join(folder, "a.map")
    write(symbols, b"0000000000010004 00000000 label here\n")
    want("L_10000: br $31,L_10008\nbr $31,fix_1\n" in repaired(folder, LISTING, "--aside", "--map", symbols)[0], True,
         "a symbol")
    by_pointer = LISTING.replace("callsys\n",
                                 "ldq $27,0($17)\njmp $31,($27),0\n").replace(".zero 0\n", ".quad 0x10004\n.zero 0\n")
    want("\nbr $31,fix_1\n" in repaired(folder, by_pointer, "--aside")[0], True, "a pointer")


def test_words_between_a_locked_load_and_its_store_stay_without_branches(folder):
    body = "L_10000: ldq_l $1,0($16)\naddq/v $1,$17,$1\nstq_c $1,0($16)\nbeq $1,L_10000\n"
    text = f".codebase 0x10000\n.entry L_10000\n.code\n{body}lda $0,1($31)\ncallsys\n"
    made, notes = repaired(folder, text, "--aside", status=3)
    want((made, "lies between a locked load and its conditional store, where no branch may be" in notes), (text, True),
         notes)
    want("\taddq/v $1,$17,$28\n\ttrapb\n\tmov $28,$1\n"
         in repaired(folder, f"\t.ent f\nf:\t{body.replace('L_10000: ', '').replace('L_10000', 'f')}\tret\n"
                                                                 "\t.end f\n")[0].replace("\naddq/v", "\n\taddq/v"),
         True, "in a text")
    # Before the load and behind the store branches may be.
    text = text.replace("L_10000: ldq_l",
                        "L_10000: addq/v $3,$4,$3\nldq_l").replace("addq/v $1,$17,$1\n",
                                                                   "").replace("lda $0", "addq/v $3,$4,$5\nlda $0")
    want("2 /V words: 0 had a barrier, 1 got one, 1 go through" in repaired(folder, text, "--aside")[1], True, "around")


@needs_program
def test_words_stand_before_the_code_where_there_is_no_room_behind(folder):
    asked, source, out = program.Program(ASKED), os.path.join(folder, "b.s"), os.path.join(folder, "b.img")
    places, code = 600, 0x14000
    # 600 words of four, of which 2,048 less the program's have room behind: 512 pages of 16 KiB end there.
    words = "addq/v $1,$2,$1\n" * places + "bis $31,$1,$16\nlda $0,1($31)\ncallsys\n"
    text = (f".codebase {code:#x}\n.database {code + 8192:#x}\n.entry {code:#x}\n.code\nlda "
            f"$2,3($31)\n{words}.data\n.quad 5\n")
    made, notes = repaired(folder, text, "--aside")
    want("600 go through $28" in notes, True, notes)
    want(asked.call("asm", source, out), (0, b"", ""), "asm")
    want((asked.verdict(out), image.read_image(out).entry), (None, code), "verdict")
    want(asked.call("run", out)[2], "exit 1800\n", "run")
    # Without room on either side the words that are missing are counted: 600 times 4 and the one that ends them.
    text = text.replace(f"{code:#x}", "0x2000").replace(f"{code + 8192:#x}", "0x4000")
    _, notes = repaired(folder, text, "--aside", "--scratch", "28", status=1)
    behind = 2048 - places - 4
    want(f"takes 2401 words, and there is room for {behind} behind the code and for 0 before it" in notes, True, notes)


@needs_program
def test_places_with_the_same_word_share_an_aside_where_each_its_own_has_no_room(folder):
    asked = program.Program(ASKED)
    source, out, old = (os.path.join(folder, name) for name in ("b.s", "b.img", "a.img"))
    # Behind the first words $28 alone is free, so these have an aside each.
    few = "".join(f"addq $0,${register},$0\n" for register in (*SPARE[1:], 16))
    words = "mulq/v $1,$2,$1\n" * 2 + few + "addq/v $1,$2,$1\nsubq/v $1,$2,$3\n" * 300
    words += "mulq/v $1,$2,$4\nbis $31,$1,$16\nlda $0,1($31)\ncallsys\n"
    text = f".codebase 0x2000\n.database 0x4000\n.entry 0x2000\n.code\nlda $2,3($31)\n{words}.data\n.quad 5\n"
    made, notes = repaired(folder, text, "--aside")
    want("301 got one, 302 go through $28, 600 share 2 asides" in notes, True, notes)
    want(asked.call("asm", source, out), (0, b"", ""), "asm")
    want((asked.verdict(out), asked.call("run", out)[2]), (None, "exit 900\n"), "verdict and run")
    want(asked.call("asm", os.path.join(folder, "a.s"), old), (0, b"", ""), "asm")
    want("shown to do what they did" in companion("same", old, out)[0], True, "same")


def test_an_image_has_no_room_for_more_than_its_most_words(_):
    text, count = ".codebase 0x20000\n.code\n", image.MOST_WORDS - 3000
    room = asides.Room(list(gas.statements(text)), count)
    # Behind the code 749 asides of four words have room with the one that ends them, and then no page before it.
    want((room.split([4] * 749), room.split([4] * 760)), ((749, 0), (749, 44)), "behind")
    # With data behind the code, one page of 2,048 words.
    room = asides.Room(list(gas.statements(f"{text}.database {0x20000 + 4 * count:#x}\n.data\n.quad 5\n")), count)
    want((room.split([4] * 512), room.split([4] * 600)), ((0, 0), (0, 352)), "before")


def test_a_listing_whose_numbers_are_addresses_of_code_is_repaired_aside_alone(folder):
    text = LISTING.replace("br $31,L_10008\naddq/v $1,$2,$1\n",
                           "ldah $27,1($31)\nlda $27,12($27)\njmp $31,($27),0\n").replace(
        "L_10008: addq/v", "addq/v")
    _, notes = repaired(folder, text, status=1)
    want("words move, and a number has the address 0x1000c of code: use --aside" in notes, True, notes)


@needs_program
def test_random_programs_do_the_same_when_they_are_repaired(folder):
    for tool in ("alpha-linux-gnu-gcc", "qemu-alpha"):
        if shutil.which(tool) is None:
            raise Lacking(f"there is no {tool} on the path")
    done = subprocess.run([kept("bench/repairs.py"), ASKED, "--count", "1", "--first", "7", "--levels", "2"],
                          cwd=folder, capture_output=True, check=False)
    told = done.stdout.decode()
    want((done.returncode, told.count("| the same | 1 |")), (0, 2), told + done.stderr.decode())
