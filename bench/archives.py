"""What is told of archives that aren't the one that is made anew of their commit, and of files that are none; for
bench/release.py."""
import contextlib
import gzip
import io
import sys
import tarfile

from measure import TOP, read
from wrapper import call, show, write

sys.path.insert(0, f"{TOP}/tools")
import archive  # noqa: E402  (the line above must come first)
import verified  # noqa: E402

RELEASE = [sys.executable, f"{TOP}/tools/release"]


def rewritten(content, change):
    """A tar file whose members, rows of what is told of each and its bytes, were changed."""
    with tarfile.open(fileobj=io.BytesIO(content)) as tar:
        rows = [(it, tar.extractfile(it).read() if it.isreg() else b"") for it in tar]
    kept = io.BytesIO()
    with tarfile.open(fileobj=kept, mode="w", format=tarfile.USTAR_FORMAT) as tar:
        for info, data in change(rows):
            info.size = len(data)
            tar.addfile(info, io.BytesIO(data))
    return kept.getvalue()


def with_mode(mode):
    def change(rows):
        for info, data in rows:
            yield (info.replace(mode=mode, deep=False) if info.name.endswith("bin/alpha") else info), data
    return change


def try_comparison(room):
    """What is told of archives that aren't the one that is made anew, on a small one."""
    files = {"bin/alpha": (True, b"a program"), "README.md": (False, b"accepted\n"), "share/last": (False, b"")}
    whole = archive.packed("name", files, 1_000_000_000)
    path = f"{room}/small.tar.gz"
    with open(path, "wb") as file:
        file.write(archive.compressed(whole))
    link = tarfile.TarInfo("name/bin/alpha")
    link.type, link.linkname = tarfile.SYMTYPE, "/bin/sh"
    changes = [
        ("a page says something else",
         lambda rows: ((it, data.upper() if it.name == "name/README.md" else data) for it, data in rows),
         "name/README.md: other bytes"),
        ("the program would run as its owner", with_mode(0o4755), "name/bin/alpha: other modes, owners or times"),
        ("a second program stands behind the first", lambda rows: [*rows, (link, b"")],
         "name/bin/alpha: 2 there, 1 here"),
        ("a file is missing", lambda rows: rows[:-1], "name/share/last: 0 there, 1 here"),
        ("many are more", lambda rows: [*rows, *((tarfile.TarInfo(f"name/{it}"), b"") for it in range(30))],
         "and 10 more"),
        ("the order is another one", lambda rows: [rows[0], *rows[:0:-1]],
         "the files are in another order, or something is beside them"),
    ]
    for what, change, line in changes:
        status, text = compared(path, archive.compressed(rewritten(whole, change)))
        show(f"an archive is another one where {what}", status == 1, f"  {line}\n" in text)
    status, text = compared(path, archive.compressed(whole + b"\0" * 512))
    show("so it is where something stands behind its end", status == 1, "something is beside them" in text)
    status, text = compared(path, gzip.compress(whole, 1))
    show("compressed by something else it has the same files", status == 0, "the same files" in text)
    status, text = compared(path, read(path))
    show("it is the same as itself", status == 0, archive.sum_of(read(path)) in text)


def compared(path, content):
    """The status and the lines that such bytes in the place of the archive get, against it."""
    wrote = io.StringIO()
    with contextlib.redirect_stdout(wrote):
        status = verified.compare("there", content, verified.tars("there", content), path)
    return status, wrote.getvalue()


def try_no_archives(room, program):
    write(f"{room}/none.tar.gz", "none")
    with open(f"{room}/cut.tar.gz", "wb") as file:
        file.write(archive.compressed(archive.packed("name", {"PROVED": (False, b"commit none\n")}, 0))[:-20])
    with open(f"{room}/other.tar.gz", "wb") as file:
        file.write(archive.compressed(archive.packed("bantamtinsel-5", {"PROVED": (False, b"commit none\n")}, 0)))
    for name in ("none", "cut", "other", "missing"):
        status, output, told = call([*RELEASE, "--verify", f"{room}/{name}.tar.gz", "--program", program])
        show(f"{name}.tar.gz isn't verified", status == 1, output == "", told.startswith("release: "),
             told.count("\n") == 1, f" {told}")
