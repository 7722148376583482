"""What the benchmarks share: images that they make, times, host instructions and memory.

Times are the best of five runs, in milliseconds. Host instructions are counted by valgrind's callgrind. Each
benchmark takes the program to measure as its one argument, crates/alpha_tool/out/alpha_tool where it is left out.
"""
import os
import re
import shutil
import struct
import subprocess
import sys
import tempfile
import time

TOP = os.path.dirname(os.path.dirname(os.path.abspath(__file__)))
WORDS = 262_144
TRAPB, NOP = 0x63FF0000, 0x47FF041F


def operate(opcode, function, ra, rb, rc):
    return opcode << 26 | ra << 21 | rb << 16 | function << 5 | rc


def addqv(rc):
    return operate(0x10, 0x60, 1, 2, rc)


def memory_word(opcode, ra, disp):
    return opcode << 26 | ra << 21 | 30 << 16 | disp & 0xFFFF


def load(disp):
    return memory_word(0x29, 0, disp)


def store(disp):
    return memory_word(0x2D, 1, disp)


def branch(disp):
    """`br $31` by so many words from the next one."""
    return 0x30 << 26 | 31 << 21 | disp & 0x1F_FFFF


def branch_if(opcode, ra, disp):
    """A branch of this opcode by so many words from the next one."""
    return opcode << 26 | ra << 21 | disp & 0x1F_FFFF


def ret(rb):
    """`ret $31, (rb)`."""
    return 0x1A << 26 | 31 << 21 | rb << 16 | 2 << 14


def image(code, data=b""):
    header = struct.pack("<8sQQQIIII", b"ALPHAIM1", 0x10000, 0x10000000, 0x10000, len(code), len(data), 0, 65536)
    return header + struct.pack(f"<{len(code)}I", *code) + data


def level_image(code, count, data):
    """Version 2, at level 2, with so many segments that share the data evenly."""
    share = len(data) // count
    numbers = struct.pack("<8sQQIIII", b"ALPHAIM2", 0x10000, 0x10000, len(code), 65536, 2, count)
    segments = b"".join(struct.pack("<QII", 0x10000000 + n * share, share, 0) for n in range(count))
    return numbers + segments + struct.pack(f"<{len(code)}I", *code) + data


def repeated(part):
    code = part * (WORDS // len(part))
    return code + [NOP] * (WORDS - len(code))


def no_triggers():
    """Plain words, loads and stores, a branch each six."""
    return repeated([NOP, load(0), operate(0x10, 0x20, 3, 4, 5), store(8), NOP, branch(0)])


def read(path):
    with open(path, "rb") as file:
        return file.read()


class Folder:
    """The files of a folder, by their names in it."""

    def __init__(self, folder):
        self.folder = folder

    def path(self, name):
        return os.path.join(self.folder, name)

    def keep(self, name, contents):
        with open(self.path(name), "wb") as file:
            file.write(contents)
        return self.path(name)


def the_program(words=None):
    words = sys.argv[1:] if words is None else words
    program = words[0] if words else os.path.join(TOP, "crates/alpha_tool/out/alpha_tool")
    if not os.access(program, os.X_OK):
        sys.exit(f"{program} is not built: run ./alpha once")
    return program


def counts_instructions():
    return shutil.which("valgrind") is not None


def file_of(contents):
    file = tempfile.NamedTemporaryFile()
    file.write(contents)
    file.flush()
    return file


def best(command, runs=5, **how):
    times = []
    for _ in range(runs):
        start = time.perf_counter()
        subprocess.run(command, stdout=subprocess.DEVNULL, stderr=subprocess.DEVNULL, **how)
        times.append(time.perf_counter() - start)
    return min(times) * 1000


def instructions(command, **how):
    """How many host instructions a command takes."""
    with tempfile.NamedTemporaryFile() as out:
        counted = ["valgrind", "--tool=callgrind", f"--callgrind-out-file={out.name}", *command]
        text = subprocess.run(counted, stdout=subprocess.DEVNULL, stderr=subprocess.PIPE, text=True, **how).stderr
    return int(re.search(r"Collected : (\d+)", text).group(1))


def most_memory(command, runs=10):
    """The most memory that a command has, in bytes, as it stands when a run is looked at last before its end."""
    most = 0
    for _ in range(runs):
        child = subprocess.Popen(command, stdout=subprocess.DEVNULL, stderr=subprocess.DEVNULL)
        while child.poll() is None:
            with open(f"/proc/{child.pid}/status") as status:
                found = re.search(r"VmHWM:\s*(\d+) kB", status.read())
            most = max(most, int(found.group(1)) * 1024 if found else 0)
    return most


def print_times(name, rows):
    """Rows of what was run and its time; the first is what the others are held against."""
    for what, millis in rows:
        print(f"{name}: {what} {millis:.1f} ms, {millis / rows[0][1]:.1f} of {rows[0][0]}")
