"""What a keep gives to others and suffers from them: cases of bench/devices.py that take other users, access lists and
mounts, most of them root. What can't be tried here is told by a line and left out."""
import contextlib
import os
import resource
import shutil
import stat
import subprocess

from keeping import OLD
from measure import TOP

# Users who are nobody here by name: each with its group. The last one is in the group of root.
USERS = ((1, 1), (65_534, 65_534), (2, 0))
LINKS = 40
MOST_TURNS = 10
# So many KiB of stack each command does with.
MOST_STACK, MOST_STACK_OF_DEBUG = 112, 152


def as_user(user):
    """What a child does to become a user with a group."""
    def become():
        os.setgroups([])
        os.setgid(user[1])
        os.setuid(user[0])
    return become


def access(path):
    """Who of the users may read and write a file."""
    return {(user, how) for user in USERS for how in "rw"
            if not subprocess.run(["test", f"-{how}", path], preexec_fn=as_user(user)).returncode}


def put(path, contents, mode=0o644, owner=None):
    with open(path, "wb") as file:
        file.write(contents)
    os.chmod(path, mode)
    if owner:
        os.chown(path, *owner)


def folder_of(trial, name, mode=0o755):
    path = trial.path(name)
    os.mkdir(path)
    os.chmod(path, mode)
    return path, os.path.join(path, "out")


def keep_over(trial, what, out, folder, more=()):
    """Keeps OUT: it is the new one, and nothing else but it is in its folder."""
    done = trial.asm(out)
    trial.check(f"{what}: status {done.returncode}", done.returncode == 0 and trial.read(out) == trial.new)
    trial.check(f"{what}: {sorted(os.listdir(folder))} are there",
                set(os.listdir(folder)) == {os.path.basename(out), *more})


def taken_names(trial):
    """Names that a killed run, or somebody, has left."""
    folder, out = folder_of(trial, "taken")
    names = [f".alpha-keep-{number}" for number in range(1_000)]
    for name in names:
        put(os.path.join(folder, name), b"")
    for _ in range(3):
        keep_over(trial, "a thousand names of new files", out, folder, names)
    print("names that are there: none was in the way")


def other_owners(trial):
    """A file of another user keeps its owner, group and mode, and nobody gets more."""
    folder, out = folder_of(trial, "owners", 0o777)
    for owner in ((1, 1), (1, 0), (0, 1)):
        for mode in (0o600, 0o640, 0o644, 0o664):
            put(out, OLD, mode, owner)
            before = os.stat(out)
            keep_over(trial, f"a file of {owner}", out, folder)
            after = os.stat(out)
            same = (after.st_uid, after.st_gid, after.st_mode, after.st_ino) == (*owner, before.st_mode, before.st_ino)
            trial.check(f"a file of {owner} with mode {mode:o} isn't written in place", same)
    print("files of others: they keep their owner, group and mode")


def swaps(trial):
    """Just before each call the new file is swapped for a link to a private file of root, which must stay what it
    is."""
    if not trial.library:
        return print("left out: swapped names: there is no C compiler")
    folder, out = folder_of(trial, "swaps", 0o777)
    secret = trial.path("secret")
    put(secret, OLD, 0o600)
    for call in ("open", "statx", "fchmod", "chown", "write", "fsync", "rename"):
        for count in range(1, MOST_TURNS):
            for mode, owner in ((0o600, USERS[0]), (0o644, None), (0o640, None)):
                put(out, OLD, mode, owner)
                trial.asm(out, env={**trial.failing(call, count, 0), "SECRET": secret, "FOLDER": folder})
                found = os.stat(secret)
                same = ((found.st_uid, found.st_gid, stat.S_IMODE(found.st_mode)) == (0, 0, 0o600)
                        and trial.read(secret) == OLD)
                trial.check(f"a private file of root was given away at {call} {count}", same)
                for name in os.listdir(folder):
                    os.remove(os.path.join(folder, name))
    print("names swapped for links before each call: no file was given away")


def access_lists(trial):
    """Nobody may do more with OUT than before the keep, by its access list or by the default list of its folder."""
    if not shutil.which("setfacl"):
        return print("left out: access lists: there is no setfacl")
    folder, out = folder_of(trial, "lists")
    if subprocess.run(["setfacl", "-m", "u:1:r", folder], capture_output=True).returncode:
        return print("left out: access lists: this file system has none")
    for default in (None, "u:1:rwx,m::rwx", "u:1:rwx,g::rwx,o::rwx,m::rwx", "g::---,o::---"):
        subprocess.run(["setfacl", "-b", "-k", folder], check=True)
        if default:
            subprocess.run(["setfacl", "-d", "-m", default, folder], check=True)
        for mode in (0o600, 0o604, 0o640, 0o644, 0o660, 0o664, 0o666):
            for entries in (None, "u:1:r", "u:1:rw", "g::---,u:1:r"):
                put(out, OLD)
                subprocess.run(["setfacl", "-b", out], check=True)
                os.chmod(out, mode)
                if entries:
                    subprocess.run(["setfacl", "-m", entries, out], check=True)
                before = access(out)
                what = f"mode {mode:o} with {entries} in a folder with {default}"
                keep_over(trial, what, out, folder)
                more = {(user, how) for user, how in access(out) - before
                        if not os.stat(out).st_mode & {"r": 4, "w": 2}[how]}
                trial.check(f"{what}: {sorted(more)} may do more", not more)
                os.remove(out)
    print("access lists: nobody got more, but where a list denies what all may")


def stored(trial):
    """A file system in a file, of which a copy behind status 0 is what a loss of power leaves."""
    disk, copy, folder = trial.path("disk.img"), trial.path("copy.img"), trial.path("mounted")
    os.mkdir(folder)
    with open(disk, "wb") as file:
        file.truncate(16 << 20)
    made = shutil.which("mkfs.ext4") and not subprocess.run(["mkfs.ext4", "-q", "-F", disk]).returncode
    if not made or subprocess.run(["mount", "-o", "loop", disk, folder], capture_output=True).returncode:
        return print("left out: a loss of power: no file system in a file can be mounted here")
    out = os.path.join(folder, "out")
    try:
        for old in (None, OLD):
            with contextlib.suppress(FileNotFoundError):
                os.remove(out)
            if old:
                put(out, old)
            os.sync()
            done = trial.asm(out)
            shutil.copy(disk, copy)
            with cut_off(trial, copy) as there:
                trial.check("a loss of power: OUT isn't the new one",
                            (done.returncode, trial.read(os.path.join(there, "out"))) == (0, trial.new))
    finally:
        subprocess.run(["umount", folder], check=True)
    print("a loss of power behind status 0: OUT was new")


@contextlib.contextmanager
def cut_off(trial, copy):
    """The folder of a file system that was never taken down."""
    folder = trial.path("cut")
    os.makedirs(folder, exist_ok=True)
    subprocess.run(["mount", "-o", "loop", copy, folder], check=True)
    try:
        yield folder
    finally:
        subprocess.run(["umount", folder], check=True)


def mounted(trial):
    """OUT is mounted by itself, from the same disk."""
    folder, out = folder_of(trial, "bound")
    below = trial.path("below")
    put(below, OLD)
    put(out, OLD)
    if subprocess.run(["mount", "--bind", below, out], capture_output=True).returncode:
        return print("left out: a mounted OUT: nothing can be mounted here")
    try:
        keep_over(trial, "a mounted OUT", out, folder)
        trial.check("a mounted OUT: what is mounted isn't new", trial.read(below) == trial.new)
    finally:
        subprocess.run(["umount", out], check=True)
    print("a mounted OUT: written in place")


def append_only(trial):
    """A folder that lets no name be removed."""
    folder, out = folder_of(trial, "append")
    if not shutil.which("chattr") or subprocess.run(["chattr", "+a", folder], capture_output=True).returncode:
        return print("left out: an append-only folder: none can be made here")
    try:
        for _ in range(3):
            keep_over(trial, "an append-only folder", out, folder)
    finally:
        subprocess.run(["chattr", "-a", folder], check=True)
    print("an append-only folder: OUT is written in place, and nothing is left")


def long_names(trial):
    """Names up to the longest that the system takes, and as many links as it follows."""
    folder, out = folder_of(trial, "long")
    here = os.getcwd()
    os.chdir(folder)
    try:
        for length in (4_000, *range(4_040, 4_096)):
            name = "./" * ((length - 3) // 2) + "/" * ((length - 3) % 2) + "out"
            for _ in range(2):
                done = trial.asm(name)
                trial.check(f"a name of {length} bytes: status {done.returncode}",
                            done.returncode == 0 and trial.read(out) == trial.new)
                put(out, OLD)
            os.remove(out)
        for number in range(LINKS):
            os.symlink(f"link{number + 1}" if number + 1 < LINKS else "out", f"link{number}")
        for _ in range(2):
            done = trial.asm("link0")
            trial.check(f"{LINKS} links: status {done.returncode}",
                        done.returncode == 0 and trial.read(out) == trial.new)
    finally:
        os.chdir(here)
    trial.check("long names: a new file is left", len(os.listdir(folder)) == LINKS + 1)
    print("long names and many links: kept")


def streams(trial):
    """OUT of `record` is what its notes or its output go to."""
    image = os.path.join(TOP, "examples/factorial.img")
    folder, notes = folder_of(trial, "streams")
    for stream, name in ((2, "/dev/stderr"), (1, "/dev/stdout"), (2, "/proc/self/fd/2"), (2, notes)):
        put(notes, b"", 0o640)
        with open(notes, "r+b") as file:
            where = {"stdout": subprocess.DEVNULL, "stderr": subprocess.DEVNULL, ("stdout", "stderr")[stream - 1]: file}
            status = subprocess.run([trial.program, "record", image, name], stdin=subprocess.DEVNULL,
                                    **where).returncode
        trial.check(f"record to {name}, a stream: status {status}", status == 8)
        trial.check(f"record to {name}, a stream: a journal in it", not trial.read(notes).startswith(b"ALPHA"))
    piped = trial.run("record", image, "/dev/stderr", stdin=subprocess.DEVNULL)
    trial.check("record to /dev/stderr, a pipe",
                piped.returncode == 8 and piped.stderr.endswith(b"shelf\n") and b"ALPHA" not in piped.stderr)
    done = trial.run("record", image, "/dev/null", stdin=subprocess.DEVNULL)
    trial.check("record to /dev/null", done.returncode == 0)
    print("record to a stream: refused")


def small_stack(trial):
    """Each command does with little stack."""
    def limited(most):
        return lambda: resource.setrlimit(resource.RLIMIT_STACK, (most << 10, resource.RLIM_INFINITY))

    image = os.path.join(TOP, "examples/factorial.img")
    source = os.path.join(TOP, "examples/modules/total.s")
    module, out = trial.path("module"), trial.path("with_little")
    parts = [trial.path(name) for name in ("total.mod", "sum.mod", "put.mod")]
    for part in parts:
        trial.run("module", os.path.join(TOP, "examples/modules", os.path.basename(part).replace(".mod", ".s")), part)
    for words in (["asm", trial.source, out], ["fix", trial.source, out], ["module", source, module],
                  ["link", out, *parts],
                  ["record", image, out], ["run", image], ["run", "--imprecise", image], ["debug", image],
                  ["dis", image], ["check", image]):
        most = MOST_STACK_OF_DEBUG if words[0] == "debug" else MOST_STACK
        done = trial.run(*words, stdin=subprocess.DEVNULL, preexec_fn=limited(most))
        trial.check(f"{words[0]} with {most} KiB of stack: status {done.returncode}", done.returncode == 0)
    print(f"{MOST_STACK} KiB of stack, and {MOST_STACK_OF_DEBUG} by debug: enough")


def all_cases(trial):
    taken_names(trial)
    long_names(trial)
    streams(trial)
    small_stack(trial)
    if os.geteuid():
        return print("left out: other users, access lists, mounts, a loss of power, append-only folders: they take "
                     "root")
    os.chmod(trial.folder, 0o755)
    for case in (other_owners, swaps, access_lists, stored, mounted, append_only):
        case(trial)
