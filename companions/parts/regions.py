"""The functions of a text, by name, for what is said of their places."""
import bisect
import re

from . import files, places

# A label that labels.awk made says the address that it had.
ADDRESS = re.compile(r"L_([0-9a-f]+)\Z")
REST = "what is in no function"


def names_of(statements, text_of_map=None):
    """The name of the function of each statement: by the map where there is one, else by what `.ent` and `.type` say of
    labels."""
    return by_map(statements, *text_of_map) if text_of_map else by_labels(statements)


def by_labels(statements):
    names = {statement.operands[0] for statement in statements if statement.operands and
             (statement.name == ".ent"
              or statement.name == ".type" and statement.operands[-1].strip("@%\"") == "function")}
    current, told = REST, []
    for statement in statements:
        for label in statement.labels:
            if label in names:
                # gcc puts the seldom parts of a function elsewhere, as `main.cold`.
                current = label.split(".cold")[0]
        told.append(current)
        if statement.name == ".end":
            current = REST
    return told


def by_map(statements, path, text, map_path):
    """By the symbols of a map. It must be that of the text's image: labels that say an address stand there."""
    addresses = addresses_of(path, text)
    symbols = code_symbols(map_path)
    starts = [start for start, _, _ in symbols]
    told = []
    for statement in statements:
        address = addresses.get(statement.line)
        at = -1 if address is None else bisect.bisect_right(starts, address) - 1
        is_in = at >= 0 and not (symbols[at][1] and address >= starts[at] + symbols[at][1])
        told.append(symbols[at][2] if is_in else REST)
    return told


def addresses_of(path, text):
    """The addresses of the lines of a source. Labels that say an address must stand there."""
    source = places.Source(path, text)
    for address, label, _ in source.names.rows:
        match = ADDRESS.match(label)
        if match and int(match[1], 16) != address:
            raise files.Refused(f"{path}: {label} stands at {address:#x}, so the text isn't that of the map")
    return {line: address for address, line in source.lines.items()}


def code_symbols(path):
    """(address, size, name) of the functions of a map, of labels where it has none, by rising address."""
    rows = [match for line in files.read_text(path).splitlines() if (match := places.MAP_LINE.fullmatch(line))]
    for kinds in ("func",), ("func", "label"):
        found = {int(row[1], 16): (int(row[2], 16), row[4]) for row in rows if row[3] in kinds}
        if found:
            break
    return sorted((address, size, name) for address, (size, name) in found.items())
