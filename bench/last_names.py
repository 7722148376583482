"""Names that reach the map in which `alpha_names` keeps what finds no slot in either of its trees, and the search for
them.

The names are those of `ONE_HASH` and eight letters. All have one quick hash, so one of them has the slot in the first
tree. In the second one a name goes from the root that the highest 12 bits of its SipHash-1-3 choose down by the bits
above the lowest 32, over 20 slots at most. A first name that shares so many of these bits with all others takes each of
the 20 slots on one way; whatever shares 19 of them is then put into the map.
"""
import os
import shutil
import subprocess
import sys
import tempfile

# Names of 32 bytes that begin so have one quick hash: the third eight bytes are the state of the hasher behind the
# first sixteen, so that what it multiplies next has a factor of 0.
ONE_HASH = "crowd_0000100431jxd8Xp31"
# What `search` has found: one for each slot of the way on which all bits are 0, from the root on, and those for the
# map.
ON_THE_WAY = ("uyijgaaa okbmraaa bwmxcbaa gvwwpdaa zwmzkeaa vabeggaa qvedqhaa nyppnjaa tnqbtjaa txfekkaa tcecklaa "
              "wpqdicaa "
              "evxvoaaa tktxicaa wmzpfdaa xipgimaa dxgohuba fkhotsfa imnrjbba xkithxba").split()
LAST = "bdqbfxmb xjaaqcob gljnuzyb pjvzckda vfgodjdb ifvdlfeb ozojkdzb karxgabc".split()
# So many blocks of 676 names are searched: 2^34 of them, of which some ten share 19 bits and the root.
BLOCKS = 25_415_000

# The hash of each name behind a front of 24 bytes, and how many bits a name shares; the root must be 0.
SEARCH = r"""
#include <stdint.h>
#include <stdio.h>
#include <stdlib.h>
#include <string.h>
#define ROTATED(x, n) ((x) << (n) | (x) >> (64 - (n)))
#define ROUND(a, b, c, d) do { a += b; c += d; b = ROTATED(b, 13) ^ a; d = ROTATED(d, 16) ^ c; a = ROTATED(a, 32); \
    c += b; a += d; b = ROTATED(b, 17) ^ c; d = ROTATED(d, 21) ^ a; c = ROTATED(c, 32); } while (0)
enum { BLOCK = 676, LEAST = 10 };
int main(int count, char **words) {
    uint64_t blocks = strtoull(words[2], 0, 10), last[BLOCK], high[BLOCK], m;
    uint64_t a = 0x736f6d6570736575, b = 0x646f72616e646f6d, c = 0x6c7967656e657261, d = 0x7465646279746573;
    for (int word = 0; word < 3; word++) {
        memcpy(&m, words[1] + 8 * word, 8);
        d ^= m; ROUND(a, b, c, d); a ^= m;
    }
    for (int low = 0; low < BLOCK; low++) last[low] = ('a' + low % 26) | ('a' + low / 26) << 8;
    for (uint64_t block = 0; block < blocks; block++) {
        uint64_t rest = block, word = 0;
        for (int at = 2; at < 8; at++, rest /= 26) word |= (uint64_t)('a' + rest % 26) << 8 * at;
        for (int low = 0; low < BLOCK; low++) {
            uint64_t p = a, q = b, r = c, s = d, w = word | last[low], end = (uint64_t)32 << 56;
            s ^= w; ROUND(p, q, r, s); p ^= w;
            s ^= end; ROUND(p, q, r, s); p ^= end;
            r ^= 0xff; ROUND(p, q, r, s); ROUND(p, q, r, s); ROUND(p, q, r, s);
            high[low] = (p ^ q ^ r ^ s) >> 32;
        }
        for (int low = 0; low < BLOCK; low++) {
            if (high[low] & (0xfff00000 | (1 << LEAST) - 1)) continue;
            uint64_t name = word | last[low];
            printf("%.8s %d\n", (char *)&name, high[low] ? __builtin_ctzll(high[low]) : 20);
        }
    }
    return 0;
}
"""


def search():
    """Prints the words of `ON_THE_WAY` and of `LAST`, which takes some minutes and a C compiler."""
    compiler = shutil.which("cc") or shutil.which("gcc")
    if not compiler:
        sys.exit("there is no C compiler")
    with tempfile.TemporaryDirectory() as folder:
        source, program = os.path.join(folder, "search.c"), os.path.join(folder, "search")
        with open(source, "w") as file:
            file.write(SEARCH)
        subprocess.run([compiler, "-w", "-O3", "-march=native", "-o", program, source], check=True)
        found = subprocess.run([program, ONE_HASH, str(BLOCKS)], stdout=subprocess.PIPE, text=True, check=True).stdout
    shared = [(int(bits), word) for word, bits in map(str.split, found.splitlines())]
    way = []
    for level in range(20):
        name = next((word for bits, word in sorted(shared) if bits >= level and word not in way), None)
        if name is None:
            sys.exit(f"no name shares {level} bits")
        way.append(name)
    print(*way)
    print(*[word for bits, word in shared if bits >= 19 and word not in way])
