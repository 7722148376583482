"""Holds an archive, or a package, against its sources: it is made anew out of the commit that it names, and
compared."""
import gzip
import io
import os
import re
import subprocess
import sys
import tarfile
import tempfile
import zlib

import archive
import debian
from archive import Refused, git, sum_of

PROGRAM = "crates/alpha_tool/out/alpha_tool"
# More than any archive has, so that a small file can't fill the memory.
MOST = 1 << 28
MOST_TOLD = 20
COMMIT = re.compile(r"[0-9a-f]{40,64}")
PROVED = re.compile(r"(bantamtinsel-[\w.-]+|\./usr/lib/bantamtinsel)/PROVED")


def read(path):
    try:
        with open(path, "rb") as file:
            return file.read(MOST)
    except OSError as error:
        raise Refused(f"{path}: {error.strerror}") from error


def spelled(text):
    """What PROVED or a record says, by the first word of each line."""
    return {word: rest for word, _, rest in (line.partition(" ") for line in text.splitlines())}


def tars(path, content):
    """The bytes of the tar files in an archive or a package."""
    if path.endswith(".deb"):
        return debian.unpacked(path)
    try:
        with gzip.open(io.BytesIO(content)) as file:
            return [file.read(MOST)]
    except (OSError, EOFError, zlib.error) as error:
        raise Refused(f"{path}: no archive: {error}") from error


def members(path, unpacked):
    """Rows of all that is in tar files: the path, what else is told of it, and the bytes."""
    rows = []
    try:
        for content in unpacked:
            with tarfile.open(fileobj=io.BytesIO(content)) as tar:
                rows += [(it.name, (it.type, oct(it.mode), it.uid, it.gid, it.uname, it.gname, it.mtime, it.linkname),
                          tar.extractfile(it).read() if it.isreg() else b"") for it in tar]
    except (tarfile.TarError, ValueError) as error:
        raise Refused(f"{path}: no archive: {error}") from error
    return rows


def verify(path, given):
    """Makes an archive anew and compares. The program is the given one, or else is built."""
    content = read(path)
    theirs = tars(path, content)
    texts = [content for name, _, content in members(path, theirs) if PROVED.fullmatch(name)]
    if len(texts) != 1:
        raise Refused(f"{path}: no archive of Bantamtinsel: it has {len(texts)} files PROVED")
    proved = texts[0].decode("utf-8", "replace")
    said = spelled(proved)
    if not COMMIT.fullmatch(said.get("commit", "")):
        raise Refused(f"{path}: PROVED names no commit, but {said.get('commit', 'nothing')}")
    with tempfile.TemporaryDirectory(prefix="verified-") as room:
        tree = clone(room, said["commit"])
        program = os.path.abspath(given) if given else build(tree)
        here = sum_of(read(program))
        if here != said.get("program"):
            print(f"{path}: another program: it names {said.get('program')}, made by {said.get('kit')}, and here is "
                  f"{here}"
                  + ("" if given else f", made by {archive.of_shell('made').rpartition('kit ')[2]}"))
            return 1
        return compare(path, content, theirs, make_anew(room, tree, program, proved, os.path.basename(path)))


def clone(room, commit):
    """A clone of this repository at the commit."""
    tree = os.path.join(room, "tree")
    git("cat-file", "-e", f"{commit}^{{commit}}")
    git("clone", "-q", "--no-checkout", archive.TOP, tree)
    git("checkout", "-q", "--detach", commit, top=tree)
    return tree


def build(tree):
    """The program, proved and built in the clone, from nothing."""
    done = subprocess.run([sys.executable, os.path.join(tree, "tools/build.py")], stdin=subprocess.DEVNULL, check=False)
    if done.returncode:
        raise Refused("the program can't be built")
    return os.path.join(tree, PROGRAM)


def make_anew(room, tree, program, proved, name):
    """The path of the file of that name, made in the clone by its own tools, and by what PROVED says of the gate."""
    record, folder = os.path.join(room, "record"), os.path.join(room, "made")
    with open(record, "w", encoding="utf-8") as file:
        file.writelines(line for line in proved.splitlines(keepends=True)
                        if line.split(" ")[0] not in ("version", "needs"))
    how = ["--trial"] if spelled(proved).get("gate", "").startswith("none") else ["--gate", record]
    words = [sys.executable, os.path.join(tree, "tools/release"), "-o", folder, "--program", program, *how]
    done = subprocess.run(words, stdin=subprocess.DEVNULL, capture_output=True, text=True, check=False)
    if done.returncode:
        raise Refused(f"it can't be made anew: {done.stderr.strip()}")
    made = os.path.join(folder, name)
    if not os.path.exists(made):
        raise Refused(f"{' and '.join(sorted(os.listdir(folder)))} is made of the commit, and no {name}")
    return made


def compare(path, content, theirs, anew):
    """Tells whether an archive is the one that was made anew."""
    made = read(anew)
    ours = tars(anew, made)
    if content == made:
        print(f"{path}: the same, {len(content)} bytes, SHA-256 {sum_of(content)}")
    elif theirs == ours:
        print(f"{path}: the same files, compressed otherwise than here, so that the bytes are others")
    else:
        print(f"{path}: another one")
        for line in differences(members(path, theirs), members(anew, ours)):
            print(f"  {line}")
        return 1
    return 0


def differences(theirs, ours):
    """A line for each file that isn't alike, and how."""
    lines = []
    for name in dict.fromkeys(it[0] for it in [*ours, *theirs]):
        there, here = ([it for it in rows if it[0] == name] for rows in (theirs, ours))
        if len(there) != len(here):
            lines.append(f"{name}: {len(there)} there, {len(here)} here")
        elif there != here:
            is_same = [it[2] for it in there] == [it[2] for it in here]
            lines.append(f"{name}: other {'modes, owners or times' if is_same else 'bytes'}")
    if not lines:
        lines = ["the files are in another order, or something is beside them"]
    return lines[:MOST_TOLD] + [f"and {len(lines) - MOST_TOLD} more"] * (len(lines) > MOST_TOLD)
