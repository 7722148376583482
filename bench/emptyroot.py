#!/usr/bin/env python3
"""Tries a trial of an archive and of a Debian package in a root that has nothing of this machine.

    bench/emptyroot.py ROOT [PROGRAM]     crates/alpha_tool/out/alpha_tool, where PROGRAM is left out

ROOT is a folder with a base system, as `debootstrap --variant=minbase bookworm ROOT` makes it. With python3 in it, as
by `--include=python3`, README.md's commands, the pages, the companions' tests and the suite for emulators are tried
too, both unpacked and installed; without it, what companions say then. Where its C library is older than the program
needs, what is said of that. Only root may do so; else it is skipped, and a line says so. What is put into ROOT is taken
away again.
"""
import os
import shutil
import subprocess
import sys
import tempfile

sys.dont_write_bytecode = True
from measure import TOP, the_program  # noqa: E402  (the line above must come first)
from release import LOST, RELEASE  # noqa: E402
from wrapper import FAILED, call, show, wrong  # noqa: E402

sys.path.insert(0, f"{TOP}/tools")
import archive  # noqa: E402
import debian  # noqa: E402
import versions  # noqa: E402

NOBODY = ["setpriv", "--reuid=65534", "--regid=65534", "--clear-groups", "--no-new-privs"]
HOME = "/usr/lib/bantamtinsel"
SUITE = ('--run "{0} run --watch --steps {{steps}} --complete {{complete}} {{image}}" --follow "{0} replay {{image}} '
         '{{journal}}"')
# Seconds that a script may take: the tests of the companions on a machine that others use too.
LONGEST = 3600


class Root:
    """A root, with a folder for all that is put into it."""

    def __init__(self, path, folder):
        self.path, self.folder = path, folder

    def call(self, script, user=True):
        """(status, output, notes) of a script of sh in that folder, of a user who may do nothing else, or of root."""
        words = ["unshare", "--mount", "--pid", "--kill-child", f"--mount-proc={self.path}/proc", "chroot", self.path]
        words += [*(NOBODY if user else []), "sh", "-c", f"cd {self.folder} && {script}"]
        env = {"PATH": "/usr/local/sbin:/usr/local/bin:/usr/sbin:/usr/bin:/sbin:/bin", "HOME": self.folder,
               "LC_ALL": "C.UTF-8"}
        try:
            return call(words, env=env, timeout=LONGEST)
        except subprocess.TimeoutExpired:
            return None, "", f"no end within {LONGEST} seconds"

    def has(self, command):
        return self.call(f"command -v {command}")[0] == 0


def last(text):
    """The last line."""
    return (text.rstrip().splitlines() or [""])[-1]


def try_bare(root, name, package):
    """What needs no Python."""
    status, output, said = root.call(f"tar xf {name}-{archive.PLATFORM}.tar.gz && {name}/bin/alpha check "
                                     f"{name}/examples/lost.img")
    show("two commands lead to the first verdict", (status, output, said) == (1, "", LOST), f" {said}")
    show("./alpha does so too", root.call(f"cd {name} && ./alpha check examples/lost.img") == (1, "", LOST))
    show("and tells its version",
         root.call(f"cd {name} && ./alpha --version")[1].startswith(f"version {versions.version()}\ncommit "))
    status, _, said = root.call(f"dpkg -i {package}", user=False)
    show("the package can be installed", status == 0, f" {said}")
    show("its program is on the path", root.call(f"alpha check {HOME}/examples/lost.img") == (1, "", LOST))
    if not root.has("python3"):
        for companion in ("alpha-where", f"{name}/bin/alpha-where"):
            status, output, said = root.call(f"{companion} 10000")
            show(f"{companion} says that it needs Python", status == FAILED, output == "",
                 said.startswith("alpha-where: python3 is missing"))


def try_python(root, name):
    """Pages, companions and suite, unpacked and installed."""
    for what, script in (("pages are as the program has them", "python3 bench/pages.py bin/alpha"),
                         ("lines of code are as the program has them", "python3 bench/snippets.py bin/alpha")):
        status, output, said = root.call(f"cd {name} && {script}")
        show(f"{what}: {last(output)}", status == 0, f" {output}{said}")
    for where, folder, program in (("unpacked", name, "bin/alpha"), ("installed", HOME, "/usr/bin/alpha")):
        status, output, said = root.call(f"cd {folder} && python3 companions/test.py {program}")
        show(f"{where}, the companions' tests pass: {last(output)}", status == 0, f" {output}{said}")
        status, output, said = root.call(f"cd {folder} && python3 conformance/run {SUITE.format(program)}")
        show(f"{where}, the suite passes: {last(output)}", status == 0, f" {output}{said}")
    _, output, said = root.call(f"alpha-shadowmap {HOME}/examples/refused.img")
    show("installed, a companion finds the program", "C2: a source is lost" in output, f" {said}")


def try_old(root, name):
    """An older C library than the program needs."""
    status, output, said = root.call(f"tar xf {name}-{archive.PLATFORM}.tar.gz && {name}/alpha check "
                                     f"{name}/examples/lost.img")
    show(f"an older C library: {said.strip()}", status == FAILED, output == "", "the program needs glibc" in said)
    status, output, said = root.call(f"{name}/install {root.folder}/prefix")
    show("there nothing is installed", status == FAILED, root.call("ls prefix")[0] != 0)


def is_old(root):
    program_needs = tuple(map(int, root.needs.split(".")))
    status, output, _ = root.call("getconf GNU_LIBC_VERSION")
    return status != 0 or tuple(map(int, output.split()[1].split("."))) < program_needs


def main():
    if os.geteuid():
        print("skipped: all: only root may call a program in another root")
        return 0
    path, program = os.path.realpath(sys.argv[1]), os.path.abspath(the_program(sys.argv[2:]))
    folder = tempfile.mkdtemp(dir=f"{path}/tmp")
    root = Root(path, f"/tmp/{os.path.basename(folder)}")
    version = versions.version()
    name, package = f"bantamtinsel-{version}-trial", debian.file_name(f"{version}~trial")
    try:
        subprocess.run([*RELEASE, "--trial", "--program", program, "-o", folder], check=True)
        os.chown(folder, 65534, 65534)
        with open(program, "rb") as file:
            root.needs = archive.needed(file.read())
        if is_old(root):
            try_old(root, name)
        else:
            try_bare(root, name, package)
            if root.has("python3"):
                try_python(root, name)
            status, _, said = root.call("dpkg -r bantamtinsel", user=False)
            show("the package can be removed", status == 0, not os.path.exists(f"{path}{HOME}"), f" {said}")
    finally:
        shutil.rmtree(folder)
    return bool(wrong)


if __name__ == "__main__":
    sys.exit(main())
