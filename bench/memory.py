#!/usr/bin/env python3
"""Refuses the built program each of its allocations in turn, on the examples: it must end as with all of them, or with
status 12 and nothing on the output. It needs a C compiler, for a library that is loaded before the program.

    bench/memory.py [PROGRAM]
"""
import os
import shutil
import subprocess
import sys
import tempfile

from measure import TOP, the_program

REFUSING = r"""
#include <stddef.h>
#include <stdlib.h>
extern void *__libc_malloc(size_t), *__libc_realloc(void *, size_t);
extern void *__libc_calloc(size_t, size_t), *__libc_memalign(size_t, size_t);
static long left = -2;
static int refused(void) {
    if (left == -2) left = getenv("REFUSED") ? atol(getenv("REFUSED")) : -1;
    return left > 0 && --left == 0;
}
void *malloc(size_t n) { return refused() ? NULL : __libc_malloc(n); }
void *realloc(void *p, size_t n) { return refused() ? NULL : __libc_realloc(p, n); }
void *calloc(size_t k, size_t n) { return refused() ? NULL : __libc_calloc(k, n); }
void *aligned_alloc(size_t a, size_t n) { return refused() ? NULL : __libc_memalign(a, n); }
int posix_memalign(void **p, size_t a, size_t n) {
    return !(refused() ? 0 : (*p = __libc_memalign(a, n)) != NULL) * 12; }
"""
SCRIPT = b"step 3\ngo\nlog\nregs\n"
MOST = 10_000


def main():
    program, compiler = the_program(), shutil.which("cc")
    if not compiler:
        sys.exit("there is no C compiler")
    wrong = 0
    with tempfile.TemporaryDirectory() as folder:
        source, library, out = (os.path.join(folder, name) for name in ("refusing.c", "refusing.so", "out"))
        with open(source, "w") as file:
            file.write(REFUSING)
        subprocess.run([compiler, "-shared", "-fPIC", "-o", library, source], check=True)
        image = os.path.join(TOP, "examples/factorial.img")
        calls = [["check", image], ["dis", image], ["asm", os.path.join(TOP, "examples/sum.s"), out], ["run", image],
                 ["run", "--imprecise", image], ["debug", image], ["trial", "1"]]
        modules = {name: os.path.join(folder, name) for name in ("total", "sum", "put")}
        for name, kept in modules.items():
            subprocess.run([program, "module", os.path.join(TOP, f"examples/modules/{name}.s"), kept], check=True)
        journal = os.path.join(folder, "journal")
        subprocess.run([program, "record", image, journal], check=True, capture_output=True)
        calls += [["module", os.path.join(TOP, "examples/modules/total.s"), out], ["link", out, *modules.values()],
                  ["fix", os.path.join(TOP, "examples/sum.s"), out], ["record", image, out], ["replay", image, journal]]
        for call in calls:
            def ended(number):
                environment = {**os.environ, "LD_PRELOAD": library, "REFUSED": str(number)}
                done = subprocess.run([program, *call], input=SCRIPT, capture_output=True, env=environment)
                return done.returncode, done.stdout, done.stderr

            own, refused = ended(0), 0
            for number in range(1, MOST):
                answer = ended(number)
                if answer == own and number > refused + 20:
                    break
                if answer != own:
                    refused = number
                    if answer[:2] != (12, b""):
                        wrong += 1
                        print(f"{' '.join(call)}: allocation {number}: status {answer[0]}, {answer[2][-200:]!r}")
            print(f"{call[0]}: the last allocation whose refusal is told is number {refused}")
    sys.exit(bool(wrong))


if __name__ == "__main__":
    main()
