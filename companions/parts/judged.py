"""The verdict of each function of a file, by the program's verdicts on images of its words alone."""
from concurrent.futures import ThreadPoolExecutor

from . import broken, files, functions, image, shadows, table


def verdicts(asked, found, jobs, of_all=False):
    """What is to be said of each function, in lines: its verdict, or why it has none; and where `of_all` says so, each
    of its broken triggers. Equal words have equal verdicts."""
    told = list(rows_of(found))
    rows = {id(row): row for row, _ in told if row is not None}
    keys = {number: row.words.tobytes() for number, row in rows.items() if not row.is_idle}
    distinct = {key: rows[number].words for number, key in keys.items()}
    verdict_of = dict(zip(distinct, broken.first_of_each(asked, list(distinct.values()), jobs)))
    by_row = {number: verdict_of[key] for number, key in keys.items()}
    # Words without a /V word open no shadow wherever they stand, so a verdict is asked of many functions at once.
    for words in joined(row.words for number, row in rows.items() if number not in keys):
        if broken.first_of_each(asked, [words], 1) != [None]:
            raise files.Refused("the program finds a broken trigger among words without /V")
    lines = [[f"no verdict: {why}"] if row is None else [said(one.symbol.address, by_row.get(id(row)), row)]
             for one, (row, why) in zip(found, told)]
    if of_all:
        wanted = {id(row): (one.symbol.address, row) for one, (row, _) in zip(found, told)
                  if row is not None and (has_shaded(row) or by_row.get(id(row)))}
        with ThreadPoolExecutor(max(1, jobs)) as pool:
            more = dict(zip(wanted, pool.map(lambda one: every_line(asked, *one), wanted.values())))
        for line, (row, _) in zip(lines, told):
            line += more.get(id(row), [])
    return lines


def rows_of(found):
    """The row of each function, or why it has none. Names of the same words have the same row."""
    known = {}
    for one in found:
        key = id(one.section), one.symbol.address, one.size
        if key not in known:
            known[key] = functions.row_of(one)
        yield known[key]


def joined(rows):
    """The rows one behind another, in rows that are as long as an image's code may be."""
    together = []
    for row in rows:
        if len(together) + len(row) > image.MOST_WORDS:
            yield together
            together = []
        together.extend(row)
    if together:
        yield together


def has_shaded(row):
    return any(one.trigger is not None for one in row.foreign)


def said(address, verdict, row):
    """A verdict with the addresses of the file."""
    if verdict is not None:
        count = len(row.foreign)
        beside = f"; {count} word{'s' if count > 1 else ''} outside the table" if count else ""
        return f"{broken_text(address, verdict)}{beside}"
    if has_shaded(row):
        return f"no verdict: {functions.foreign_text(address, row)}"
    if row.foreign:
        return f"accepted but for words in no shadow: {functions.foreign_text(address, row)}"
    return "accepted; no /V word" if row.is_idle else "accepted"


def broken_text(address, verdict):
    trigger, place, condition = verdict
    moved = address - image.CODE_BASE
    return f"broken trigger {trigger + moved:016x} at {place + moved:016x} condition C{condition}"


def every_line(asked, address, row):
    """A line for each broken trigger of a function, and for each other one in whose shadow a word stands that can't be
    judged."""
    words = list(row.words)
    whole = broken.image_of(words)
    found = broken.every_broken(asked, whole, shadows.Code(words), 1)
    lines = [(one.trigger, f"  {broken_text(address, one)}") for one in found]
    is_broken, foreign, left = {whole.place(one.trigger) for one in found}, {one.place: one for one in row.foreign}, []
    for n, insn in enumerate(map(functions.insn_of, words)):
        if insn.kind == table.TRIGGER:
            left.append(n)
        elif n in foreign:
            one = foreign[n]
            lines += [(whole.address(at),
                       f"  no verdict of trigger {address + 4 * at:016x}: {address + 4 * n:016x} is {one.word:08x}: "
                       f"{one.why}") for at in left if at not in is_broken]
        if insn.kind in (table.BARRIER, table.TURN):
            left = []
    return [line for _, line in sorted(lines)]
