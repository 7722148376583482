"""The Debian package of an archive: what `./install /usr` makes of it, as Debian wants it, by dpkg-deb."""
import datetime
import email.utils
import hashlib
import io
import os
import shutil
import subprocess
import tarfile
import tempfile

from archive import Refused, compressed

MAINTAINER = "Bantamtinsel maintainers <maintainers@users.noreply.bantamtinsel.example>"
CONTROL = """\
Package: bantamtinsel
Version: {version}
Architecture: amd64
Maintainer: {maintainer}
Installed-Size: {kilobytes}
Depends: libc6 (>= {libc})
Recommends: python3 (>= 3.9)
Section: devel
Priority: optional
Description: verified toolchain for integer code of the Alpha with late traps
 The program alpha checks whether code for the Alpha survives overflow traps
 that are reported late, assembles and disassembles such code, puts barriers
 into it, links it, and runs it on a sequential and on an imprecise machine.
 Each part is proved against its contract.
 .
 The companions beside it, alpha-where and others, are Python scripts.
"""
CHANGELOG = """\
bantamtinsel ({version}) unstable; urgency=medium

  * /usr/lib/bantamtinsel/CHANGELOG.md says what changed.

 -- {maintainer}  {date}
"""
COPYRIGHT = """\
Format: https://www.debian.org/doc/packaging-manuals/copyright-format/1.0/
Upstream-Name: bantamtinsel
Comment:
{notices}

Files: *
Copyright: 2026 Bantamtinsel maintainers
License: Expat or Apache-2.0

License: Expat
{mit}

License: Apache-2.0
 On Debian systems the text is /usr/share/common-licenses/Apache-2.0.
"""
# What lintian may say, as it would be wrong of other packages.
OVERRIDES = """\
# The program is the one that the gate proved and tried, to the byte.
bantamtinsel: unstripped-binary-or-object [usr/bin/alpha]
# What the tests of the companions read are programs for the Alpha.
bantamtinsel: binary-from-other-architecture [usr/lib/bantamtinsel/companions/data/*]
bantamtinsel: statically-linked-binary [usr/lib/bantamtinsel/companions/data/*]
bantamtinsel: unstripped-binary-or-object [usr/lib/bantamtinsel/companions/data/*]
# The bytes that a program writes are no text.
bantamtinsel: national-encoding [usr/lib/bantamtinsel/conformance/answers/*]
"""
DOC, MANUALS = "usr/share/doc/bantamtinsel", "usr/share/man/man1"
# Where shells look for what completes lines, as everywhere and as on Debian.
ZSH = "usr/share/zsh/site-functions", "usr/share/zsh/vendor-completions"


def is_here():
    return shutil.which("dpkg-deb") is not None


def file_name(version):
    return f"bantamtinsel_{version}_amd64.deb"


def call(*words, **how):
    done = subprocess.run(words, stdin=subprocess.DEVNULL, capture_output=True, check=False, **how)
    if done.returncode:
        raise Refused(f"{os.path.basename(words[0])}: {done.stderr.decode('utf-8', 'replace').strip()}")
    return done.stdout


def unpacked(path):
    """The two tar files of a package: of what it installs, and of what it tells dpkg."""
    return [call("dpkg-deb", f"--{which}-tarfile", path) for which in ("fsys", "ctrl")]


def package(name, whole, version, libc, when):
    """The bytes of the package of an archive, whose files are below a folder of that name."""
    with tempfile.TemporaryDirectory() as room:
        with tarfile.open(fileobj=io.BytesIO(whole)) as tar:
            tar.extractall(room)
        stage, made = os.path.join(room, "stage"), os.path.join(room, "made.deb")
        call(os.path.join(room, name, "install"), os.path.join(stage, "usr"))
        arrange(stage, os.path.join(room, name), version, when)
        describe(stage, version, libc)
        for folder, _, files in os.walk(stage):
            for it in [folder, *(os.path.join(folder, it) for it in files)]:
                os.utime(it, (when, when))
        os.chmod(stage, 0o755)
        call("dpkg-deb", "--root-owner-group", "-Zgzip", "-z9", "--build", stage, made,
             env=os.environ | {"SOURCE_DATE_EPOCH": str(when)})
        with open(made, "rb") as file:
            return file.read()


def arrange(stage, archive, version, when):
    """Puts what was installed where Debian has it, and what Debian asks for beside it."""
    for it in ("installed", "folders"):
        os.remove(os.path.join(stage, "usr/lib/bantamtinsel", it))
    os.makedirs(os.path.join(stage, os.path.dirname(ZSH[1])), exist_ok=True)
    os.rename(*(os.path.join(stage, it) for it in ZSH))
    for it in os.listdir(os.path.join(stage, MANUALS)):
        path = os.path.join(stage, MANUALS, it)
        keep(f"{path}.gz", compressed(read(path)))
        os.remove(path)
    date = email.utils.format_datetime(datetime.datetime.fromtimestamp(when, datetime.timezone.utc))
    changes = CHANGELOG.format(version=version, maintainer=MAINTAINER, date=date)
    keep(os.path.join(stage, DOC, "changelog.gz"), compressed(changes.encode()))
    keep(os.path.join(stage, "usr/share/lintian/overrides/bantamtinsel"), OVERRIDES.encode())
    mit, notices = (indented(read(os.path.join(archive, it)).decode()) for it in ("LICENSE-MIT", "NOTICES"))
    keep(os.path.join(stage, DOC, "copyright"), COPYRIGHT.format(mit=mit, notices=notices).encode())


def describe(stage, version, libc):
    """What dpkg reads: the control file, and the sums of all files."""
    files = sorted(os.path.relpath(os.path.join(folder, it), stage) for folder, _, found in os.walk(stage)
                   for it in found)
    kilobytes = sum(-(-os.path.getsize(os.path.join(stage, it)) // 1024) for it in files)
    control = CONTROL.format(version=version, maintainer=MAINTAINER, kilobytes=kilobytes, libc=libc)
    keep(os.path.join(stage, "DEBIAN/control"), control.encode())
    sums = "".join(f"{hashlib.md5(read(os.path.join(stage, it))).hexdigest()}  {it}\n" for it in files)
    keep(os.path.join(stage, "DEBIAN/md5sums"), sums.encode())


def indented(text):
    """A text as a field of a control file has it, with a dot for an empty line."""
    return "\n".join(f" {line.rstrip() or '.'}" for line in text.rstrip().splitlines())


def read(path):
    with open(path, "rb") as file:
        return file.read()


def keep(path, content):
    os.makedirs(os.path.dirname(path), mode=0o755, exist_ok=True)
    with open(path, "wb") as file:
        file.write(content)
    os.chmod(path, 0o644)
