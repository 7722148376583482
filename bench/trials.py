"""What `trial N` writes, worked in Python by crates/alpha_trial/specs/ and the rules of docs/machines.md."""
import struct

MULTIPLIERS = {64: 6364136223846793005, 128: 0x2360ED051FC65DA44385DF649FCCF645}


def rotated(value, count, bits):
    return (value >> count | value << (bits - count)) & (1 << bits) - 1


def small_word(state):
    """The 32 bits that PCG XSH RR gives of 64."""
    return rotated((state >> 18 ^ state) >> 27 & 0xFFFFFFFF, state >> 59, 32)


def seed_of(number, size):
    """So many bytes that a number seeds a generator with."""
    seed = b""
    while len(seed) < size:
        number = (number * MULTIPLIERS[64] + 0xA17654E46FBE17F3) % (1 << 64)
        seed += struct.pack("<I", small_word(number))
    return seed


def states(number, bits):
    """The states of the generator of so many bits that a number seeds."""
    seed, modulus = seed_of(number, bits // 4), 1 << bits
    state, step = (int.from_bytes(part, "little") for part in (seed[:bits // 8], seed[bits // 8:]))
    step |= 1
    state = (state + step) % modulus
    while True:
        state = (state * MULTIPLIERS[bits] + step) % modulus
        yield state


def chosen(number):
    """The words that the imprecise machine draws by a seed, PCG XSL RR."""
    generator = states(number, 128)
    next(generator)
    for state in generator:
        yield rotated(state >> 64 ^ state & (1 << 64) - 1, state >> 122, 64)


def drawn_by(adds, multiplies, words):
    """How many words a block draws on the imprecise machine, where its addition and its multiplication overflow or
    don't. The addition's trap may be reported at each of the two words before the barrier; the handler goes on behind
    the addition."""
    count = 0
    if adds:
        next(words)
        count += 1
        for _ in range(2):
            count += 1
            if next(words) % 4 == 0:
                break
            next(words)
            count += 1
    if multiplies:
        next(words)
        count += 1
    return count


def written(number):
    """Both lines of the trial of a number."""
    generator, words, overflows, drawn = states(number, 64), chosen(number), 0, 0
    for _ in range(number):
        x, y = ((small_word(next(generator)) % 65536 - 32768) << 16 for _ in range(2))
        adds, multiplies = (not -1 << 31 <= value < 1 << 31 for value in (x + y, x * y))
        overflows += adds + multiplies
        drawn += drawn_by(adds, multiplies, words)
    # Of a block the sum, the sum and one, and the product, whose low 32 bits are 0, leave 1 together.
    result = (number % 2).to_bytes(8, "little").hex()
    same = (f"words {9 * number + 10} triggers {2 * number} overflows {overflows} steps {9 * number + 10} result "
            f"{result}")
    return f"sequential {same} drawn 0\nimprecise {same} drawn {drawn}\n"
