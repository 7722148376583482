"""The version, by semantic versioning: that of the first heading of CHANGELOG.md that has one."""
import os
import re

from archive import TOP, Refused

HEADING = re.compile(r"^## (\d+)\.(\d+)\.(\d+)$", re.M)
BREAKS = "*Breaks*"


def version():
    """What the file VERSION says, held against CHANGELOG.md."""
    with open(os.path.join(TOP, "VERSION"), encoding="utf-8") as file:
        said = file.read().strip()
    with open(os.path.join(TOP, "CHANGELOG.md"), encoding="utf-8") as file:
        parts = HEADING.split(file.read())
    # The text before the first heading, and then three numbers and a text for each.
    found = [(tuple(map(int, parts[at:at + 3])), parts[at + 3]) for at in range(1, len(parts), 4)]
    if not found or said != ".".join(map(str, found[0][0])):
        raise Refused(f"VERSION is {said}, and the first version of CHANGELOG.md another one")
    for (newer, changes), (older, _) in zip(found, found[1:]):
        if newer < least_after(older, BREAKS in changes):
            raise Refused(f"CHANGELOG.md: {'.'.join(map(str, newer))} is too low a version behind "
                          f"{'.'.join(map(str, older))}")
    return said


def least_after(older, breaks):
    """The least version behind an older one. Before 1.0.0 the second number rises where something breaks, and then the
    first."""
    major, minor, patch = older
    if not breaks:
        return major, minor, patch + 1
    return (major + 1, 0, 0) if major else (0, minor + 1, 0)
