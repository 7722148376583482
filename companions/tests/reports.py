"""allbroken and shadowmap for other programs: JSON, SARIF, sources and modules, and the status that fails a build."""
import json
import os
import re
import shutil

from parts import module, program, shadows
from .helpers import ASKED, DATA, TOP, companion, needs_program, read, want, write

# A source with a shadow broken behind its trigger, by `ldq` (C4), and one broken at its own place (C2). Its comments
# name lines of a text and of a C program.
SOURCE = """\t.entry f
\t.code
f:\taddq/v $1,$2,$3\t# a.s:3 a.c:7
\tldq $4,0($3)\t# a.s:4 a.c:8
\ttrapb
\taddq/v $1,$2,$1\t# a.s:6
\ttrapb
\tret
"""
TEXT = "\t.text\n\t.globl f\nf:\taddqv $1,$2,$3\n  ldq $4,0($3)\n\ttrapb\n\t\taddqv $1,$2,$1\n"
LEVELS = ("none", "note", "warning", "error")
PLACES = [("a.s", 4, 3, "0000000000010004", "0000000000010000", "C4"),
          ("a.s", 6, 3, "000000000001000c", "000000000001000c", "C2")]


def files_in(folder):
    write(os.path.join(folder, "a.s"), TEXT.encode())
    path = os.path.join(folder, "a.as")
    write(path, SOURCE.encode())
    return path


@needs_program
def test_json_has_an_object_for_each_broken_place(folder):
    path = files_in(folder)
    for name, status in (("allbroken", 3), ("shadowmap", 0)):
        found = json.loads(companion(name, "--json", path, status=status)[0])
        want([(os.path.basename(one["file"]), one["line"], one["column"], one["place"], one["trigger"],
               one["condition"]) for one in found],
             PLACES, name)
        want([(one["instruction"], one["trigger_line"], one["function"]) for one in found],
             [("ldq $4,0($3)", 3, "f+0x4"), ("addq/v $1,$2,$1", 6, "f+0xc")], name)
        # The remedies of docs/trap-shadows.md: of C4, and of a word that is broken at its own place.
        want(found[0]["remedy"], "A barrier before the access, or a base that the shadow doesn't set.", name)
        want(found[1]["remedy"].startswith("Give the `/V` word a destination that is no source of it"), True, name)
    write(path, SOURCE.replace("ldq $4,0($3)", "nop").replace("addq/v $1,$2,$1", "nop").encode())
    want(json.loads(companion("allbroken", "--json", path)[0]), [], "an accepted source")


def faults_of_sarif(log):
    """Where a log breaks the rules of SARIF 2.1.0: what it must have, by its schema."""
    if (log.get("version") != "2.1.0" or not log.get("$schema", "").endswith("sarif-2.1.0.json")
        or not isinstance(log.get("runs"), list)):
        yield "version, $schema or runs"
    for run in log["runs"]:
        driver = run["tool"]["driver"]
        rules = driver["rules"]
        if not driver["name"] or len({rule["id"] for rule in rules}) != len(rules):
            yield "the driver, or an id of a rule for the second time"
        for rule in rules:
            if not rule["id"] or not rule["help"]["text"] or not rule["shortDescription"]["text"]:
                yield f"the rule {rule['id']}"
        for result in run["results"]:
            is_named = rules[result["ruleIndex"]]["id"] == result["ruleId"]
            if not is_named or not result["message"]["text"] or result["level"] not in LEVELS:
                yield f"the result {result['message']}"
            if not result["locations"]:
                yield "a result without a location"
            ids = [one["id"] for one in result["relatedLocations"]]
            if len(set(ids)) != len(ids) or any(not one["message"]["text"] for one in result["relatedLocations"]):
                yield "a related location"
            for one in [*result["locations"], *result["relatedLocations"]]:
                where = one["physicalLocation"]
                uri, region = where["artifactLocation"]["uri"], where["region"]
                if (not re.fullmatch(r"(file:///)?[\w./~%+-]+", uri)
                    or min(region["startLine"], region["startColumn"]) < 1):
                    yield f"{uri} {region}"


@needs_program
def test_sarif_keeps_the_rules_of_its_schema(folder):
    path, image = files_in(folder), os.path.join(folder, "a b.img")
    want(program.Program(ASKED).call("asm", path, image), (0, b"", ""), "asm")
    for words in ([path], ["--source", path, image], [image]):
        log = json.loads(companion("allbroken", "--sarif", *words, status=3)[0])
        want(list(faults_of_sarif(log)), [], words)
        want([rule["id"] for rule in log["runs"][0]["tool"]["driver"]["rules"]], [f"C{n}" for n in range(1, 10)],
             "rules")
        results = log["runs"][0]["results"]
        want([one["ruleId"] for one in results], ["C4", "C2"], words)
        first = results[0]["locations"][0]["physicalLocation"]
        if words != [image]:
            want((first["artifactLocation"]["uri"].endswith("/a.s"), first["region"]),
                 (True, {"startLine": 4, "startColumn": 3}), words)
            trigger = results[0]["relatedLocations"][0]
            want((trigger["message"]["text"], trigger["physicalLocation"]["region"]), ("the trigger, `addq/v $1,$2,$3`",
                 {"startLine": 3, "startColumn": 4}), "the trigger")
        else:
            want((first["artifactLocation"]["uri"].endswith("/a%20b.img"), first["address"]["absoluteAddress"]),
                 (True, 0x10004), words)
    out = os.path.join(folder, "a.sarif")
    companion("allbroken", "--sarif", "-o", out, path, status=3)
    want(list(faults_of_sarif(json.loads(read(out)))), [], "a file")


@needs_program
def test_each_condition_has_a_rule_and_a_remedy(_):
    from parts import remedies  # it reads docs/trap-shadows.md
    for condition in shadows.NAMES:
        want([bool(text)
              for text in (*remedies.help_of(condition), remedies.remedy(condition, False),
                           remedies.remedy(condition, True))],
             [True] * 4, condition)


@needs_program
def test_a_module_is_seen_whether_it_is_accepted_or_refused(folder):
    """The second part of the program of three parts, as gcc made it and as shadowfix repairs it."""
    asked = program.Program(ASKED)
    text, source, kept = (os.path.join(DATA, "three", "numbers.s"), os.path.join(folder, "n.as"),
                          os.path.join(folder, "n.mod"))
    shutil.copy(text, os.path.join(folder, "numbers.s"))
    companion("gas2source", "--module", text, "-o", source)
    said = program.BROKEN.search(asked.call("module", source, kept)[2])
    found = json.loads(companion("allbroken", "--json", source, status=3)[0])
    want((found[0]["trigger"], found[0]["place"], found[0]["condition"]), (said[1], said[2], f"C{said[3]}"),
         "the first, as `module` has it")
    lines = read(text).split("\n")
    want([lines[one["line"] - 1].split()[0] for one in found], ["addqv", "addqv", "mulqv"],
         "lines of the compiler's text")
    want("lda $28,%lo(numbers.many)($3)" in companion("shadowmap", source)[0], True, "a word that a link completes")
    fixed = os.path.join(folder, "fixed.s")
    companion("shadowfix", text, "-o", fixed)
    companion("gas2source", "--module", fixed, "-o", source)
    want(asked.call("module", source, kept), (0, b"", ""), "module")
    for path in (source, kept):
        want(companion("allbroken", path)[0], "0 of 3 /V words are broken\n", path)
    want("note:" in companion("shadowmap", kept)[0], True, "names of a module")
    # One that was made elsewhere may have a broken place: the barrier behind the first /V word becomes a nop.
    made = module.read_module(kept)
    at = made.words.index(0x63FF0000)
    content = bytearray(read(kept, "rb"))
    content[28 + 4 * at:32 + 4 * at] = (0x47FF041F).to_bytes(4, "little")
    write(kept, bytes(content))
    want(companion("allbroken", kept, status=3)[0].startswith("broken trigger"), True, "a module that was changed")


@needs_program
def test_a_source_that_the_program_refuses_is_refused(folder):
    path = os.path.join(folder, "a.as")
    for text, said in (("\t.code\n\tfoo $1\n", "isn't of the source language"),
                       ("\t.code\n\taddq/v $1,$2\n", "source kind 1"),
                       ("\t.entry f\n\t.code\nf:\tldq $1,99999($2)\n", "source kind 1")):
        write(path, text.encode())
        for name in ("allbroken", "shadowmap"):
            want(said in companion(name, path, status=1)[1], True, text)
    want(companion("allbroken", "--source", path, path, status=1)[1].count("\n"), 1, "--source of a source")


@needs_program
def test_the_drawing_of_a_source_is_that_of_its_image(folder):
    made = os.path.join(folder, "a.img")
    source = os.path.join(TOP, "examples", "dot.s")
    want(program.Program(ASKED).call("asm", source, made), (0, b"", ""), "asm")
    drawn = companion("shadowmap", source)[0].replace("dot.s:", "a.img:", 1)
    want(drawn, companion("shadowmap", "--source", source, made)[0], "drawings")
