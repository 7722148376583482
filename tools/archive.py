"""What an archive of the program has in it, and its bytes, which are the same wherever and whenever it is made.

Files are a dictionary from a path to (whether it may be executed, its bytes)."""
import hashlib
import io
import os
import pwd
import re
import shutil
import socket
import subprocess
import tarfile
import zlib

import completions
import manual

TOP = os.path.dirname(os.path.dirname(os.path.realpath(__file__)))
PLATFORM = "linux-x86_64"
MODES = {False: 0o644, True: 0o755}
# The head of a gzip file without a name and a time.
GZIP = b"\x1f\x8b\x08\0\0\0\0\0\x02\xff"
# What `strings` would print of a program.
PRINTED = re.compile(rb"[\t\x20-\x7e]{6,}")
LIBC = re.compile(rb"GLIBC_(\d+)\.(\d+)")


class Refused(Exception):
    """An archive that can't be made, or isn't what it should be."""


def git(*words, top=TOP):
    """What git answers in the repository."""
    done = subprocess.run(["git", "-C", top, *words], stdin=subprocess.DEVNULL, capture_output=True, check=False)
    if done.returncode:
        raise Refused(f"git {words[0]}: {done.stderr.decode('utf-8', 'replace').strip()}")
    return done.stdout.decode("utf-8", "surrogateescape")


def of_shell(function, *words):
    """What a function of tools/start.sh answers."""
    script = 'name=release top=$1; . "$top/tools/start.sh"; shift; "$@"'
    done = subprocess.run(["sh", "-c", script, "sh", TOP, function, *words], stdin=subprocess.DEVNULL,
                          capture_output=True,
                          text=True, check=False)
    if done.returncode:
        raise Refused(f"{function}: {done.stderr.strip()}")
    return done.stdout.strip()


def sum_of(content):
    return hashlib.sha256(content).hexdigest()


def committed():
    """The files that git keeps, as they stand here."""
    files = {}
    for row in filter(None, git("ls-files", "-z", "--stage").split("\0")):
        (mode, _, _), path = row.split("\t")[0].split(), row.split("\t")[1]
        if mode not in ("100644", "100755"):
            raise Refused(f"{path}: neither a file nor a script, but of mode {mode}")
        with open(os.path.join(TOP, path), "rb") as file:
            files[path] = mode == "100755", file.read()
    return files


def companions(files):
    """The names of the commands among the companions."""
    found = (re.fullmatch(r"companions/(\w+)", path) for path, (is_script, _) in files.items() if is_script)
    return sorted(match[1] for match in found if match)


def needed(program):
    """The oldest glibc that has all that the program calls."""
    found = [(int(one), int(two)) for one, two in LIBC.findall(program)]
    if not found:
        raise Refused("the program names no glibc that it needs: it isn't one of the kit")
    return "{}.{}".format(*max(found))


def made(files, program, proved, version):
    """What is put to the files of the commit: the program, what was proved of it, manual pages, and what completes its
    lines."""
    names, launch = companions(files), files["tools/launch.sh"][1]
    texts = {"PROVED": proved, "share/man/man1/alpha.1": manual.of_program(version),
             "share/bash-completion/completions/alpha": completions.bash(),
             "share/zsh/site-functions/_alpha": completions.zsh(),
             "share/fish/vendor_completions.d/alpha.fish": completions.fish()}
    texts |= {f"share/man/man1/alpha-{name}.1": manual.of_companion(name, version) for name in names}
    return {"bin/alpha": (True, program), **{f"bin/alpha-{name}": (True, launch) for name in names},
            **{path: (False, text.encode()) for path, text in texts.items()}}


def packed(name, files, when):
    """The tar file of an archive: files in the order of their names, all of one owner and one time, below a folder."""
    folders = {name} | {f"{name}/{path[:at]}" for path in files for at in range(len(path)) if path[at] == "/"}
    members = {folder: (None, b"") for folder in folders} | {f"{name}/{path}": file for path, file in files.items()}
    kept = io.BytesIO()
    with tarfile.open(fileobj=kept, mode="w", format=tarfile.USTAR_FORMAT) as tar:
        for path in sorted(members):
            is_script, content = members[path]
            info = tarfile.TarInfo(path)
            info.type = tarfile.DIRTYPE if is_script is None else tarfile.REGTYPE
            info.mode, info.size, info.mtime = MODES[is_script is not False], len(content), when
            try:
                tar.addfile(info, io.BytesIO(content))
            except ValueError as error:
                raise Refused(f"{path}: {error}, as a tar file has it") from error
    return kept.getvalue()


def compressed(content):
    """As gzip has it, with no name and no time. Only what zlib makes may differ from one machine to another."""
    packer = zlib.compressobj(9, zlib.DEFLATED, -zlib.MAX_WBITS)
    ending = zlib.crc32(content).to_bytes(4, "little") + (len(content) % 2**32).to_bytes(4, "little")
    return GZIP + packer.compress(content) + packer.flush() + ending


def names_of_machine(built):
    """(paths, names) that nothing in an archive may have: those of this repository, of the one in which the program was
    built, of the kit and of home; of user and host."""
    kit = os.path.dirname(os.path.dirname(os.path.realpath(shutil.which("rt") or "/")))
    paths = {TOP, built, kit, os.path.expanduser("~")}
    # The user 0 has the same name everywhere.
    names = {pwd.getpwuid(os.getuid()).pw_name if os.getuid() else "", socket.gethostname()}
    return [it.encode() for it in paths if len(it) > 1], [it.encode() for it in names if it]


def hold_names(files, made, built):
    """Refuses files that tell something of the machine. What git keeps is the same everywhere, so names, which may be
    words of the pages too, are looked for in what was made here."""
    paths, names = names_of_machine(built)
    for path, (_, content) in {**files, **made}.items():
        told = [it for it in paths if re.search(re.escape(it) + rb"(?![\w-])", content)]
        if path in made:
            printed = b"\n".join(PRINTED.findall(content)) if path == "bin/alpha" else content
            told += [it for it in names if re.search(rb"(?<![\w-])" + re.escape(it) + rb"(?![\w-])", printed)]
        if told:
            raise Refused(f"{path} has {told[0].decode()} in it, which is of this machine")
