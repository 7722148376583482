"""What the pages say of each condition, and what to do."""
import functools

from . import pages

PAGE = "trap-shadows.md"


def section(condition):
    return pages.section(PAGE, f"C{condition}:")


def help_of(condition):
    """All that docs/trap-shadows.md says of a condition: as text, and as Markdown."""
    plain, marked = [], []
    for block in section(condition).blocks:
        if isinstance(block, pages.Code):
            plain.append("\n".join(block.lines))
            marked.append("\n".join(["```", *block.lines, "```"]))
        elif isinstance(block, pages.Text):
            plain.append(pages.plain(block.text, PAGE))
            marked.append(pages.plain(block.text, PAGE))
    return "\n\n".join(plain), "\n\n".join(marked)


@functools.lru_cache(None)
def remedy(condition, is_own):
    """What to do, as that page says it. Where a /V word is broken at its own place no barrier helps."""
    if is_own and condition == 2:
        text = next(block.text for block in pages.section(PAGE, "The repair that always works").blocks
                    if isinstance(block, pages.Text))
        return pages.plain(text, PAGE).rstrip(":") + "."
    text = next(block.text for block in section(condition).blocks
                if isinstance(block, pages.Text) and block.text.startswith("Repair: "))
    said = pages.plain(text, PAGE).removeprefix("Repair: ")
    return said[0].upper() + said[1:]
