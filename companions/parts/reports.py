"""Broken places for other programs: as JSON, one object a place, and as SARIF 2.1.0, which code-scanning services
show."""
import json
import os
import urllib.parse

from . import origins, remedies, shadows

SCHEMA = "https://json.schemastore.org/sarif-2.1.0.json"


def as_json(subject, found):
    """An array with a line for each broken place: where it is, its trigger, and what to do."""
    rows = [json.dumps(row_of(subject, *one), ensure_ascii=True) for one in found]
    return "[\n" + ",\n".join(rows) + "\n]\n" if rows else "[]\n"


def row_of(subject, trigger, place, condition):
    """One broken place; `file` is the one that was judged, and `line` null, where no source says a line."""
    at, of = spots(subject, place)[0], spots(subject, trigger)[0]
    return {"file": at.file, "line": at.line or None, "column": at.column or None, "place": f"{place:016x}",
            "instruction": subject.line(place), "function": subject.known.near(place), "trigger": f"{trigger:016x}",
            "trigger_file": of.file, "trigger_line": of.line or None, "trigger_instruction": subject.line(trigger),
            "condition": f"C{condition}", "what": shadows.NAMES[condition],
            "remedy": remedies.remedy(condition, place == trigger)}


def spots(subject, address):
    """The spots of an address, at least one; those of the last word for the end of the code."""
    if subject.whole.place(address) is None:
        address -= 4
    return origins.spots(subject.known, address) or [origins.Spot(subject.path, 0, 0)]


def as_sarif(subject, found):
    """One run of a tool that has a rule for each condition. A result is a broken place; its trigger is a related
    location."""
    rules = [rule_of(condition) for condition in sorted(shadows.NAMES)]
    results = [result_of(subject, *one) for one in found]
    run = {"tool": {"driver": {"name": "allbroken", "rules": rules}}, "columnKind": "unicodeCodePoints",
           "results": results}
    return json.dumps({"$schema": SCHEMA, "version": "2.1.0", "runs": [run]}, indent=1) + "\n"


def rule_of(condition):
    text, marked = remedies.help_of(condition)
    name = shadows.NAMES[condition]
    return {"id": f"C{condition}", "shortDescription": {"text": f"A trap shadow is broken: {name}"},
            "help": {"text": text, "markdown": marked}, "defaultConfiguration": {"level": "error"}}


def result_of(subject, trigger, place, condition):
    at = "at its own place" if place == trigger else f"at `{subject.line(place)}`"
    said = f"The trap shadow of `{subject.line(trigger)}` is broken {at}: {shadows.NAMES[condition]} (C{condition}). "
    first, *others = spots(subject, place)
    related = [(f"the trigger, `{subject.line(trigger)}`", location(subject, trigger, spots(subject, trigger)[0]))]
    related += [("the same place there", location(subject, place, other)) for other in others]
    return {"ruleId": f"C{condition}", "ruleIndex": condition - 1, "level": "error",
            "message": {"text": said + remedies.remedy(condition, place == trigger)},
            "locations": [location(subject, place, first)],
            "relatedLocations": [one | {"id": n, "message": {"text": text}}
                                 for n, (text, one) in enumerate(related, 1)]}


def location(subject, address, at):
    """A spot; where no text says a line, the file that was judged, by the address in it."""
    region = {"startLine": at.line or 1, "startColumn": at.column or 1}
    found = {"artifactLocation": {"uri": uri(at.file)}, "region": region}
    if not at.line:
        found["address"] = {"absoluteAddress": address,
                            "fullyQualifiedName": subject.known.near(address) or f"{address:#x}"}
    return {"physicalLocation": found}


def uri(path):
    """A path as SARIF has it: relative ones stay so."""
    return ("file://" if os.path.isabs(path) else "") + urllib.parse.quote(path.encode("utf-8", "surrogateescape"))
