"""The small cases of the suite, by families: what stands in sources/ beside them, and a row of cases.tsv for each."""
import functools

from . import chosen, edges, ending, following, high, images, impossible, late, runs, state, waiting


@functools.lru_cache
def all_blocks():
    """The images of blocks."""
    return [made for family in (late, following, runs, state, waiting, ending, chosen, impossible, high)
            for made in family.families()]


@functools.lru_cache
def sources():
    """The sources of the images of all families, by name."""
    return ({made.image: made.text() for made in all_blocks()}
            | {"reads-long": runs.READER, "late-first": state.FIRST, "reads-most": ending.MOST})


def rows():
    """All rows."""
    return ([row for made in all_blocks() for row in made.rows] + list(runs.reader_rows()) + list(ending.much())
            + list(state.first_rows()) + list(images.rows()) + list(edges.rows()))
