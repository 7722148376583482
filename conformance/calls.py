"""Calls of an emulator, each with an end: what takes too long, or writes too much, is stopped."""
import functools
import os
import re
import select
import shlex
import signal
import time
from collections import namedtuple

# A status of None says that there is nothing to compare, and `notes` why.
Ran = namedtuple("Ran", "status out notes")
MOST, PIECE, PAUSE = 16 * 1024 * 1024, 65_536, 0.05
# What a file of an emulator may have: the most that a journal has, and a little more.
MOST_FILE = 34 * 1024 * 1024
NAME = re.compile(r"\{(\w+)\}")
# Python ignores these signals, and a command has them as others do.
IGNORED = [getattr(signal, name) for name in ("SIGPIPE", "SIGXFSZ") if hasattr(signal, name)]
# How long a command that has closed its outputs is first waited for, and how long at most between two looks.
FIRST_LOOK, LAST_LOOK = 0.0002, 0.02


def limit_files():
    """Keeps this run and all that it starts from writing larger files, where the system can."""
    try:
        import resource
        resource.setrlimit(resource.RLIMIT_FSIZE, (MOST_FILE, resource.getrlimit(resource.RLIMIT_FSIZE)[1]))
    except (ImportError, ValueError, OSError):
        pass


# The words of a command line.
split = functools.lru_cache(shlex.split)


@functools.lru_cache(maxsize=None)
def environment():
    """The environment of all commands, as it is at the first one."""
    return dict(os.environb)


def words_of(command, names):
    """The words of a command line, with what its names in braces stand for."""
    return [NAME.sub(lambda found: str(names.get(found[1], found[0])), word) if "{" in word else word
            for word in split(command)]


def call(words, pieces, seconds):
    """What a command did over an input of these pieces. Each but the first comes a moment later."""
    end = time.monotonic() + seconds
    with Pipes(pieces) as pipes:
        try:
            child = pipes.start(words)
        except OSError as error:
            return Ran(None, b"", f"{words[0]}: {error.strerror}")
        parts, why = pipes.all(end)
        status = wait(child, end) if why is None else None
        if status is None:
            stop(child)
            return Ran(None, b"", why or f"no end within {seconds:g} seconds")
    return Ran(status, parts[0], parts[1].decode("utf-8", "replace"))


def wait(child, end):
    """The status of a command that has closed its outputs, or None where it goes on until the time is up."""
    pause = FIRST_LOOK
    while True:
        number, status = os.waitpid(child, os.WNOHANG)
        if number:
            return os.waitstatus_to_exitcode(status)
        if time.monotonic() > end:
            return None
        time.sleep(pause)
        pause = min(2 * pause, LAST_LOOK)


def stop(child):
    """Ends the command, and what it has started."""
    try:
        os.killpg(child, signal.SIGKILL)
    except (OSError, PermissionError):
        os.kill(child, signal.SIGKILL)
    os.waitpid(child, 0)


class Pipes:
    """Writes the input of a command and reads what it writes. The first piece is written before the command is
    started, as far as the pipe takes it, so that most commands need no further look."""

    def __init__(self, pieces):
        self.pieces, self.at, self.free = [memoryview(piece) for piece in pieces], 0, 0.0
        self.ours, self.theirs = [], []
        for is_input in (True, False, False):
            reader, writer = os.pipe()
            self.ours.append(writer if is_input else reader)
            self.theirs.append(reader if is_input else writer)
        os.set_blocking(self.ours[0], False)
        self.is_writing = self.write()

    def __enter__(self):
        return self

    def __exit__(self, *_):
        for number in self.ours + self.theirs:
            os.close(number)

    def start(self, words):
        """Starts the command as a group of its own."""
        child = os.posix_spawnp(words[0], words, environment(), setpgroup=0, setsigdef=IGNORED,
                                file_actions=[(os.POSIX_SPAWN_DUP2, number, at)
                                              for at, number in enumerate(self.theirs)])
        while self.theirs:
            os.close(self.theirs.pop())
        return child

    def all(self, end):
        """All that it writes to both, and None; or why it must be stopped. A reason of "" is the time."""
        found = {number: [] for number in self.ours[-2:]}
        sizes, poll = dict.fromkeys(found, 0), select.poll()
        for number in found:
            poll.register(number, select.POLLIN | select.POLLHUP)
        outputs = list(found)
        while sizes:
            self.is_writing = self.is_writing and self.write()
            left = end - time.monotonic()
            if left <= 0:
                return None, ""
            for number, _ in poll.poll(1000 * (min(left, PAUSE) if self.is_writing else left)):
                content = os.read(number, PIECE)
                found[number].append(content)
                if not content:
                    poll.unregister(number)
                    del sizes[number]
                    continue
                sizes[number] += len(content)
                if sizes[number] > MOST:
                    return None, f"it wrote more than {MOST:,} bytes, and was stopped"
        return [b"".join(found[number]) for number in outputs], None

    def write(self):
        """Writes what the command takes now; whether there is more."""
        try:
            while self.pieces:
                if time.monotonic() < self.free:
                    return True
                self.at += (os.write(self.ours[0], self.pieces[0][self.at:self.at + PIECE])
                            if len(self.pieces[0]) > self.at else 0)
                if self.at >= len(self.pieces[0]):
                    del self.pieces[0]
                    self.at, self.free = 0, time.monotonic() + PAUSE
        except BlockingIOError:
            return True
        except BrokenPipeError:
            pass
        os.close(self.ours.pop(0))
        return False


def end_text(status):
    """How a command ended, in words."""
    if status is not None and status < 0:
        try:
            return f"it was ended by {signal.Signals(-status).name}"
        except ValueError:
            return f"it was ended by signal {-status}"
    return f"its status is {status}"
