"""Two texts, or two images, held against each other by a map of words: what `same` does, and `shadowfix` with each
repair."""
import difflib
import re

from . import addresses, codes, directives, files, gas, sameness

MOST_LISTED = 50
MAP_LINE = re.compile(r"\s*([0-9a-fA-Fx.]+)\s+([0-9a-fA-Fx.]+)(?:\s+([0-9]+))?\s*(?:#.*)?\Z")


def text_of(path, map_path=None, text=None):
    """The text of a path, with the symbols of a map where it is the listing of a whole program."""
    text = files.read_text(path) if text is None else text
    statements = [statement for statement in gas.statements(text) if statement.name or statement.labels]
    return codes.Text(statements, () if map_path is None
                      else codes.symbols_of(map_path, addresses.data_of(statements)[0]))


def held_texts(path, old, new, pairs, live=None):
    """Holds a repaired text against the old one; what was shown. It refuses what can't be shown, with its line."""
    same = sameness.Same(old.code, new.code, pairs, lambda place: f"line {old.statement(place).line}", live)
    lines = [f"{path}:{old.statement(place).line}: {why}" for place, why in same.show()]
    lines += [f"{path}: {why}" for why in other_faults(old, new, pairs)]
    refuse(lines)
    return same


def other_faults(old, new, pairs):
    """What isn't the same of two texts beside their instructions."""
    for label, place in old.labels.items():
        if new.labels.get(label) != pairs.get(place):
            yield f"the label {label} doesn't stand at the image of its word"
    for label, found in old.numbered.items():
        if [pairs.get(place) for place in found] != new.numbered.get(label):
            yield f"the labels {label} don't stand at the images of their words"
    for place, image in pairs.items():
        if old.sections[place] != new.sections[image]:
            yield f"line {old.statement(place).line}: the repair stands in another section"
            break
    yield from directives.faults(old, new, pairs)
    if (old.is_listing and any(old.base + 4 * place != new.base + 4 * image for place, image in pairs.items())
        and old.numbers()):
        place = min(old.numbers())
        yield f"words move, and a number has the address {old.base + 4 * place:#x} of code: use --aside"


def refuse(lines):
    if len(lines) > MOST_LISTED:
        lines[MOST_LISTED:] = [f"and {len(lines) - MOST_LISTED} more"]
    if lines:
        raise files.Refused("\n".join(lines))


def held_images(path, old, new, pairs, symbols=()):
    """Holds a repaired image against the old one, by pairs of places; what was shown."""
    moved = next((place for place, other in sorted(pairs.items()) if old.address(place) != new.address(other)), None)
    if moved is not None:
        raise files.Refused(f"{path}: the word at {old.address(moved):016x} moves: of images no word may, so hold the "
                            f"texts against each other")
    fields = [(made.entry, made.stack, made.level or 1, [(one.base, one.data, one.zeroed) for one in made.segments])
              for made in (old, new)]
    if fields[0] != fields[1]:
        raise files.Refused(f"{path}: the entry, the stack, the level or the data of the repair are others")
    same = sameness.Same(codes.of_image(old, symbols), codes.of_image(new), pairs,
                         lambda place: f"{old.address(place):016x}")
    refuse([f"{path}: {old.address(place):016x} {why}" for place, why in same.show()])
    return same


def same_addresses(old, new):
    """The pairs of places of two images that have the same address."""
    return {place: new.place(old.address(place)) for place in range(len(old.words))
            if new.place(old.address(place)) is not None}


def alike(old, new):
    """The pairs of places of two texts: between labels of the same names those whose instructions are written alike."""
    pairs = {place: new.labels[label] for label, place in old.labels.items() if label in new.labels}
    starts = sorted({0: 0, **pairs}.items()) if old.statements and new.statements else []
    ends = starts[1:] + [(len(old.statements), len(new.statements))]
    for (start, image_start), (end, image_end) in zip(starts, ends):
        mine, its = ([old.spelled(place) for place in range(start, end)],
                     [new.spelled(place) for place in range(image_start, image_end)])
        one = other = 0
        for block in difflib.SequenceMatcher(None, mine, its, False).get_matching_blocks():
            if block.a > one and block.b > other:
                # Of instructions that are written otherwise the first ones stand for each other.
                pairs.setdefault(start + one, image_start + other)
            pairs.update((start + block.a + n, image_start + block.b + n) for n in range(block.size))
            one, other = block.a + block.size, block.b + block.size
    # Of labels that the repair has brought together the first one counts.
    return {place: image
            for image, place in {image: place for place, image in sorted(pairs.items(), reverse=True)}.items()}


def spelled_map(old, new, pairs):
    """A map of two texts: lines `OLD NEW COUNT`, for so many instructions from those on. A spot is a line, and behind a
    dot which instruction of the line it is, where it isn't the first."""
    rows, last = [], None
    for place, other in sorted(pairs.items()):
        if last is None or (place, other) != (last[0] + 1, last[1] + 1):
            rows.append([old.spot(place), new.spot(other), 0])
        rows[-1][2] += 1
        last = place, other
    return "".join(f"{one} {other} {count}\n" for one, other, count in rows)


def read_map(path, at_old, at_new, counts):
    """The pairs of a map, by what says the place of a number in each of the two, and by how many words both have."""
    pairs = {}
    for number, line in enumerate(files.read_text(path).splitlines(), 1):
        if not line.split("#")[0].strip():
            continue
        match = MAP_LINE.fullmatch(line)
        try:
            places = (at_old(match[1]), at_new(match[2])) if match else (None, None)
        except ValueError:
            places = None, None
        count = int(match[3] or 1) if match else 0
        if None in places or any(place + count > most for place, most in zip(places, counts)):
            raise files.Refused(f"{path}:{number}: no line `OLD NEW COUNT` with two places where COUNT words are, by "
                                f"address or line")
        for n in range(count):
            pairs[places[0] + n] = places[1] + n
    return pairs
