#!/usr/bin/env python3
"""Makes a trial of an archive and of a Debian package by a program, and tries them: the commands of README.md, damages,
other machines, a machine without Python, `./install`, and what tools/release refuses and tells of others.

    bench/release.py [PROGRAM] [--all]     crates/alpha_tool/out/alpha_tool, where it is left out

With --all lintian looks at the package too, and tools/release --verify makes both anew in a clone, which take longer.
What needs git, dpkg-deb, lintian, groff or a tree without changes is skipped where that is missing, and a line says so.
bench/emptyroot.py tries both in roots that have nothing of this machine.
"""
import os
import re
import shutil
import stat
import subprocess
import sys
import tarfile
import tempfile
import time

sys.dont_write_bytecode = True
import pages  # noqa: E402  (the line above must come first)
from archives import RELEASE, try_comparison, try_no_archives  # noqa: E402
from measure import TOP, read, the_program  # noqa: E402
from wrapper import COMMANDS, FAILED, call, show, without_kit, write, wrong  # noqa: E402

sys.path.insert(0, f"{TOP}/tools")
import archive  # noqa: E402
import completions  # noqa: E402
import debian  # noqa: E402
import verified  # noqa: E402
import versions  # noqa: E402

MOST_BYTES, MOST_SECONDS = 6_000_000, 60
LOST = "broken trigger 000000000001000c at 000000000001000c condition C2\n"
# What ./alpha and ./install of an archive call.
CALLED = ("sh dirname readlink uname sha256sum sed getconf sort head cat find grep cp mv rm mkdir rmdir chmod").split()


def skip(what, why):
    print(f"skipped: {what}: {why}", flush=True)


def unpack(room, path):
    """The folder of the archive, unpacked."""
    os.makedirs(room)
    subprocess.run(["tar", "xf", path], cwd=room, check=True)
    return os.path.join(room, os.listdir(room)[0])


def listing(folder):
    """Each file of a folder with its mode and its bytes."""
    paths = [os.path.join(at, it) for at, _, files in os.walk(folder) for it in files]
    return {os.path.relpath(it, folder): (stat.S_IMODE(os.lstat(it).st_mode), read(it)) for it in paths}


def with_command(room, bare, name, text):
    """The environment with a command that answers this text."""
    folder = tempfile.mkdtemp(dir=room)
    write(f"{folder}/{name}", f"#!/bin/sh\necho '{text}'\n")
    os.chmod(f"{folder}/{name}", 0o755)
    return bare | {"PATH": f"{folder}:{bare['PATH']}"}


def try_start(room, path):
    """README.md's way from an archive to the first verdict."""
    text = read(f"{TOP}/README.md").decode()
    block, shown = re.search(r"```sh\n(tar xf .*?)```\n.*?\n```\n(.*?)```", text, re.S).groups()
    version = versions.version()
    write(f"{room}/commands", block.replace(f"bantamtinsel-{version}", f"bantamtinsel-{version}-trial"))
    shutil.copy(path, room)
    start = time.time()
    status, output, said = call(["sh", f"{room}/commands"], cwd=room)
    seconds = time.time() - start
    show(f"README.md's two commands lead from the archive to a verdict; they took {seconds:.1f} seconds",
         block.count("\n") == 2, (status, output + said) == (1, shown), shown == LOST, seconds < MOST_SECONDS)


def try_minute(top):
    blocks = [pages.commands_in(it) for it in pages.Page("README.md").blocks if it[1][:1] == ["console"]]
    ran = [(shown, wrote) for it in blocks for (_, _, shown), (wrote, _) in zip(it, pages.run_block(it, top))]
    show("in the archive README.md's commands write what it shows", len(ran) > 6,
         *(pages.is_shown(wrote, shown) for shown, wrote in ran))


def try_alpha(room, top, bare):
    """./alpha of the archive, which never builds, as the path has neither kit nor Python."""
    alpha = f"{top}/alpha"
    check = [alpha, "check", f"{top}/examples/lost.img"]
    show("without Python and kit the archive's program judges", call(check, env=bare) == (1, "", LOST))
    proved = read(f"{top}/PROVED").decode()
    said = verified.spelled(proved)
    show("the version is that of PROVED", call([alpha, "--version"], env=bare) ==
         (0, f"version {said['version']}\ncommit {said['commit']}\nkit {said['kit']}\nprogram proved\n", ""),
         said["version"] == versions.version(), said["program"] == archive.sum_of(read(f"{top}/bin/alpha")))
    status, output, told = call([f"{top}/bin/alpha-where", "10000"], env=bare)
    show("a companion says that it needs Python", status == FAILED, output == "",
         told.startswith("alpha-where: python3 is missing"))
    status, output, told = call([f"{top}/bin/alpha-explain", "--status", "2"])
    show("with it a companion of that name runs", status == 0, "words" in output, told == "")
    for command, answer, line in (("uname", "Linux aarch64",
                                   "the program is one for Linux on x86-64, and this is Linux aarch64"),
                                  ("getconf", "glibc 2.4",
                                   f"the program needs {said['needs']} or later, and here is glibc 2.4"),
                                  ("getconf", "undefined",
                                   f"the program needs {said['needs']} or later, and here is another C library")):
        other = with_command(room, bare, command, answer)
        show(f"where {command} says {answer} the program isn't tried",
             call(check, env=other) == (FAILED, "", f"alpha: {line}\n"))
    try_damages(room, top, bare)


def try_damages(room, top, bare):
    whole = read(f"{top}/bin/alpha")
    for what, content in (("a byte of it is another one", whole[:5000] + bytes([whole[5000] ^ 1]) + whole[5001:]),
                          ("it was cut", whole[:5000]), ("it is empty", b"")):
        with open(f"{top}/bin/alpha", "wb") as file:
            file.write(content)
        status, output, told = call([f"{top}/alpha", "check", f"{top}/examples/lost.img"], env=bare)
        show(f"the program isn't run where {what}", status == FAILED, output == "",
             told == f"alpha: {top}/bin/alpha isn't the program that PROVED names: unpack the archive anew\n")
        status, _, _ = call([f"{top}/install", f"{room}/damaged"])
        show(f"nor is it installed where {what}", status == FAILED, not os.path.exists(f"{room}/damaged"))
    with open(f"{top}/bin/alpha", "wb") as file:
        file.write(whole)


def try_install(room, top, bare):
    prefix, install = f"{room}/a prefix", f"{top}/install"
    os.makedirs(f"{prefix}/bin")
    write(f"{prefix}/bin/other", "somebody's")
    before = listing(prefix)
    status, _, told = call([install, "a prefix"], env=bare, cwd=room)
    after = listing(prefix)
    show("./install needs no Python, and installs by a relative name with a space", status == 0, told == "",
         after["bin/alpha"][1] == read(f"{top}/bin/alpha"), "lib/bantamtinsel/PROVED" in after,
         "share/man/man1/alpha.1" in after,
         {mode for mode, _ in after.values()} <= {0o644, 0o755}, not any("__pycache__" in it for it in after))
    env = {**os.environ, "PATH": f"{prefix}/bin:{os.environ['PATH']}"}
    show("program and companions are on the path",
         call(["alpha", "check", f"{top}/examples/lost.img"], env=env) == (1, "", LOST),
         "words" in call(["alpha-explain", "--status", "2"], env=env, cwd=room)[1])
    try_others_files(prefix, install)
    try_upgrade(prefix, top, install)
    status, _, told = call([install, "--uninstall", prefix], env=bare)
    show("--uninstall leaves what was there", status == 0, told == "", listing(prefix) == before,
         os.listdir(prefix) == ["bin"])
    show("there is nothing more then", call([install, "--uninstall", prefix])[0] == 1)
    show("a clone isn't installed", call([f"{TOP}/install", prefix])[0] == 1, listing(prefix) == before)
    show("nor is an archive installed into itself", call([install, f"{top}/here"])[0] == 1,
         not os.path.exists(f"{top}/here"))


def try_others_files(prefix, install):
    """Files of others stay, and so does what was changed."""
    manual = f"{prefix}/share/man/man1/alpha.1"
    was = read(manual).decode()
    write(manual, "changed")
    is_now = listing(prefix)
    status, _, told = call([install, prefix])
    show("a changed file isn't replaced, nor anything else", status == 1, f"{manual} is there" in told,
         listing(prefix) == is_now)
    list_of_all = read(f"{prefix}/lib/bantamtinsel/installed").decode()
    for line in ("/etc/passwd", "bin/../../other", "lib/other"):
        write(f"{prefix}/lib/bantamtinsel/installed", f"{'0' * 64}  {line}\n")
        show(f"a list with {line} isn't followed", call([install, "--uninstall", prefix])[0] == 1,
             os.path.exists(f"{prefix}/bin/alpha"))
    write(f"{prefix}/lib/bantamtinsel/installed", list_of_all)
    status, _, told = call([install, "--uninstall", prefix])
    show("nor is it taken away", status == 0, f"{manual} was changed since, and stays" in told,
         read(manual) == b"changed",
         not os.path.exists(f"{prefix}/bin/alpha"))
    status, _, told = call([install, prefix])
    show("nor is it replaced as a file of somebody else", status == 1, not os.path.exists(f"{prefix}/lib"))
    write(manual, was)
    os.remove(manual)
    shutil.rmtree(f"{prefix}/share")


def try_upgrade(prefix, top, install):
    """An archive over another one, in the middle of whose way the call was killed."""
    shutil.copy(f"{top}/bin/alpha-where", f"{top}/bin/alpha-old")
    call([install, prefix])
    os.remove(f"{top}/bin/alpha-old")
    os.rename(f"{prefix}/lib/bantamtinsel", f"{prefix}/lib/bantamtinsel.old")
    had = os.path.exists(f"{prefix}/bin/alpha-old")
    status, _, told = call([install, prefix])
    left = sorted(os.listdir(f"{prefix}/lib"))
    show("another version goes on from there, and the old one's files go", status == 0, told == "", had,
         not os.path.exists(f"{prefix}/bin/alpha-old"), left == ["bantamtinsel"])


def completed(script, *words):
    """What bash offers in the place of the last word."""
    text = f'. "{script}"; COMP_WORDS=("$@"); COMP_CWORD=$(($# - 1)); _alpha; echo "${{COMPREPLY[*]}}"'
    return call(["bash", "-c", text, "bash", *words])[1].split()


def try_completions(top):
    script = f"{top}/share/bash-completion/completions/alpha"
    show("bash completes commands, options and their values", completed(script, "alpha", "re") == ["record", "replay"],
         completed(script, "alpha", "run", "--c") == ["--complete", "--choices"],
         completed(script, "alpha", "record", "--i") == [], completed(script, "alpha", "link", "--") == ["--entry"],
         completed(script, "alpha", "run", "--complete", "s") == ["saturate", "stop"],
         completed(script, "alpha", "run", "--complete", "=", "w") == ["wrap"],
         completed(script, "alpha", "run", "--complete", "=") == ["wrap", "saturate", "stop"],
         completed(script, "alpha", "check", "x") == [])
    texts = [read(f"{top}/share/{it}").decode()
             for it in ("zsh/site-functions/_alpha", "fish/vendor_completions.d/alpha.fish")]
    names = {it.name for it in completions.commands()}
    show("zsh and fish have all commands and options", len(names) == 11, all(f"'{it}:" in texts[0] for it in names),
         all(f" -a {it} " in texts[1] for it in names),
         all("--force" in texts[0] and "-l force" in texts[1] for _ in [0]))


def try_manuals(top):
    if shutil.which("groff") is None:
        skip("the manual pages", "groff is missing")
        return
    folder = f"{top}/share/man/man1"
    for name in sorted(os.listdir(folder)):
        status, text, told = call(["groff", "-man", "-Tascii", "-P-cbou", "-ww", f"{folder}/{name}"])
        if name == "alpha.1":
            show("alpha.1 has each command, option and status", status == 0, told == "", "--complete" in text,
                 all(re.search(rf"\n       {it} ", text) for it in [*COMMANDS, *range(21)]))
        elif status or told or "NAME" not in text:
            show(f"{name} is a manual page", False, told)


def try_package(top, path):
    if not debian.is_here():
        skip("the package", "dpkg-deb is missing")
        return
    members = verified.members(path, debian.unpacked(path))
    there = {name.removeprefix("./usr/"): content for name, told, content in members if told[0] == tarfile.REGTYPE}
    inside = {it.removeprefix("lib/bantamtinsel/"): content for it, content in there.items()
              if it.startswith("lib/bantamtinsel/")}
    show("the package has the archive's files", there["bin/alpha"] == read(f"{top}/bin/alpha"), len(inside) > 600,
         "PROVED" in inside,
         all(content == read(f"{top}/{it}") for it, content in inside.items()))


def try_lintian(room, path):
    if shutil.which("lintian") is None:
        skip("what lintian says", "lintian is missing")
        return
    said = call(["lintian", path], env=os.environ | {"TMPDIR": room})[1]
    show("lintian finds no error", not re.search(r"^E: ", said, re.M), f" {said}")


def try_refusals(room, program):
    """What tools/release makes no archive of."""
    def refused(what, line, *words):
        status, output, told = call([*RELEASE, "-o", f"{room}/refused", *words])
        show(f"no archive is made {what}", status == 1, output == "", line in told,
             not os.path.exists(f"{room}/refused"), f" {told}")

    with_path = f"{room}/with_path"
    shutil.copy(program, with_path)
    with open(with_path, "ab") as file:
        file.write(f"\0{TOP}/crates\0".encode())
    refused("of a program that has a path of this machine in it", f"bin/alpha has {TOP} in it", "--trial", "--program",
            with_path)
    write(f"{room}/text", "no program")
    refused("of what is no program of the kit", "names no glibc", "--trial", "--program", f"{room}/text")
    refused("without a record", ".ci/run leaves it", "--program", program, "--gate", f"{room}/none")
    if not is_clean():
        skip("records of another gate", "there are changes since the commit")
        return
    record = record_of(program)
    for word in ("commit", "sources", "program", "gate"):
        line = "how the gate ended" if word == "gate" else f"with {word} "
        text = "".join(f"{it} {'0' * 40 if it == word else value}\n" for it, value in record.items()
                       if (it, word) != ("gate", "gate"))
        write(f"{room}/record", text)
        refused(f"by a record with another {word}", line, "--program", program, "--gate", f"{room}/record")


def is_clean():
    return bool(verified.COMMIT.fullmatch(archive.of_shell("commit", ".")))


def record_of(program):
    """What a record of this tree and this program says."""
    return {"commit": archive.of_shell("commit", "."), "sources": archive.of_shell("sum_of_sources").split()[0],
            "kit": "some kit",
            "program": archive.sum_of(read(program)), "gate": "rt ci: 5 passed, 0 failed"}


def try_verify(room, program):
    """Archive and package by a record, held against those that a clone in another folder makes."""
    if not is_clean():
        skip("an archive of a clone in another folder", "there are changes since the commit")
        return
    write(f"{room}/record", "".join(f"{word} {value}\n" for word, value in record_of(program).items()))
    status, _, told = call([*RELEASE, "--program", program, "--gate", f"{room}/record", "-o", f"{room}/released"])
    names = sorted(os.listdir(f"{room}/released"))
    show("by a record of its own a tree is released", status == 0, not any("trial" in it for it in names), f" {told}")
    for name in names:
        start = time.time()
        status, output, told = call([*RELEASE, "--verify", f"{room}/released/{name}", "--program", program])
        show(f"a clone in another folder makes the same {name}; it took {time.time() - start:.0f} seconds", status == 0,
             told == "",
             archive.sum_of(read(f"{room}/released/{name}")) in output, f" {output}{told}")
    status, output, told = call([*RELEASE, "--verify", f"{room}/released/{names[0]}", "--program", "/bin/true"])
    show("but not by another program", status == 1, "another program" in output, told == "")


def main():
    is_all = "--all" in sys.argv
    program = os.path.abspath(the_program([it for it in sys.argv[1:] if it != "--all"]))
    with tempfile.TemporaryDirectory() as room:
        room = os.path.realpath(room)
        status, _, said = call([*RELEASE, "--trial", "--program", program, "-o", f"{room}/out"])
        if status and re.match("release: (git |.*'git')", said):
            skip("all", said.strip())
            return 0
        show("an archive is made", status == 0, said == "" or "dpkg-deb" in said, f" {said}")
        path = f"{room}/out/bantamtinsel-{versions.version()}-trial-{archive.PLATFORM}.tar.gz"
        package = f"{room}/out/{debian.file_name(f'{versions.version()}~trial')}"
        show(f"it has {os.path.getsize(path):,} bytes", os.path.getsize(path) <= MOST_BYTES)
        bare = without_kit(room, CALLED)
        os.mkdir(f"{room}/first")
        try_start(f"{room}/first", path)
        top = unpack(f"{room}/an archive", path)
        try_minute(top)
        try_alpha(room, top, bare)
        try_install(room, top, bare)
        try_completions(top)
        try_manuals(top)
        try_package(top, package)
        after = versions.least_after
        show("a version rises by what breaks", after((1, 2, 3), True) == (2, 0, 0), after((0, 2, 3), True) == (0, 3, 0),
             after((1, 2, 3), False) == (1, 2, 4))
        try_refusals(room, program)
        try_comparison(room)
        try_no_archives(room, program)
        if is_all:
            try_lintian(room, package)
            try_verify(room, program)
    print(f"an archive and what is refused: {len(wrong)} wrong")
    return bool(wrong)


if __name__ == "__main__":
    sys.exit(main())
