"""where and shadowmap: lines of addresses, and drawings."""
import json
import os
import re

from parts import drawing
from .helpers import companion, needs_program, want, write_image


@needs_program
def test_shadowmap_draws(folder):
    path = os.path.join(folder, "ten.img")
    add = [0x42110C00 | n for n in range(1, 13)]
    write_image(path, [*add, 0x42110C10, 0x63FF0000] + [0x47FF041F] * 9)
    out, _ = companion("shadowmap", path)
    drawn = out.split("\n")
    want(drawn[:2], ["ten.img: 23 words, 13 /V words, 13 of them broken",
                     "broken trigger 0000000000010000 at 0000000000010030 condition C2"], "head")
    want(drawn[15],
         "   10030 XXXXXXXXXXXX  addq/v $16,$17,$16       C2 of 10000, C2 of 10004, C2 of 10008, C2 of 1000c, "
         "C2 of 10010, C2 of 10014, and of 7 more  +1 not drawn", "row")
    want("... 7 words in no shadow" in out, True, "fold")
    page, _ = companion("shadowmap", path, "--html")
    held = json.loads(re.search(r'<script id="data" type="application/json">(.*?)</script>', page, re.S)[1])
    want((held["head"]["verdict"], len(held["shadows"]), len(held["lines"].split("\n")), page.count("</script>")),
         ("broken trigger 0000000000010000 at 0000000000010030 condition C2", 13, 23, 2), "page")
    want(re.findall(r'(?:src|href)="[^"#]', page), [], "what the page needs besides itself")


def test_lanes_are_free_again_behind_a_shadow(_):
    class Stretch:
        def __init__(self, trigger, end):
            self.trigger, self.end = trigger, end
    stretches = [Stretch(0, 4), Stretch(1, 2), Stretch(2, 9), Stretch(3, 5), Stretch(5, 6)]
    want(drawing.lanes(stretches, 3), [0, 1, 2, 1, 0], "lanes")
    want(drawing.lanes(stretches, 2), [0, 1, None, 1, 0], "two lanes")


def test_a_source_is_laid_out(folder):
    path = os.path.join(folder, "a.as")
    with open(path, "w", encoding="ascii") as file:
        file.write("\t.entry s\n\t.data\na:\t.ascii \"\\x41b,\\n\\\"#\"  # x\nb: .byte 010,2\n.align 3\nc: .zero "
                   "010\nd:\n"
                   "\t.code\ns: nop\n# t.c:1\nt:\tbr s\t# t.c:7 t.x:9\n")
    out, _ = companion("where", "--source", path, "10000000", "10000006", "10000008", "10000012", "10004", "20000")
    want(out.split("\n")[:6], ["0000000010000000 a", "0000000010000006 b", "0000000010000008 c", "0000000010000012 d",
                               "0000000000010004 t, a.as:11 (t.c:7 t.x:9): br s",
                               "0000000000020000 nothing is known of it"], "where")
