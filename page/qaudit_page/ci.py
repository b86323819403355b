"""The results of many traces for CI systems: JUnit XML, SARIF, and annotations of GitHub."""

import json
import os
from collections.abc import Callable
from pathlib import Path
from typing import Any
from urllib.parse import quote
from xml.etree import ElementTree

from .known import Known, known_by
from .matrix import FAILED, OTHER, WITH_ALLOWANCES, Result
from .rules import (
    ANY,
    DESCRIBED,
    EXAMPLE,
    FORMAT,
    MEANINGS,
    MUST,
    RULES,
    SHOULD,
    is_counted,
    requirement_of,
)
from .texts import count, harmless, visible
from .version import version
from .violations import Violation

SCHEMA = "https://json.schemastore.org/sarif-2.1.0.json"
NAME = "qaudit"
ANNOTATED = {"%": "%25", "\r": "%0D", "\n": "%0A"}
ANNOTATED_NAMES = {**ANNOTATED, ":": "%3A", ",": "%2C"}
# How a violation counts by how strong the RFC is; a line that cannot be read is an error.
ERROR, WARNING, NOTE = "error", "warning", "note"
LEVELS = {MUST: ERROR, SHOULD: WARNING, DESCRIBED: NOTE, EXAMPLE: NOTE, FORMAT: NOTE}
# What GitHub calls these.
NAMES_OF_LEVELS = {ERROR: "error", WARNING: "warning", NOTE: "notice"}

# The case and the stacks of a result.
Places = Callable[[Result], tuple[str, str]]


class Listed:
    """Results with what is known of them, and how strong the RFC has to be for a failure."""

    def __init__(
        self,
        results: list[Result],
        place: Places,
        known: set[Known] | None,
        fail_on: str = ANY,
    ) -> None:
        self.results, self.place, self.known, self.fail_on = results, place, known, fail_on

    def is_known(self, result: Result, violation: Violation) -> bool:
        """Whether a violation is known."""
        return self.known is not None and self.as_known(result, violation) in self.known

    def is_failure(self, result: Result, violation: Violation) -> bool:
        """Whether a violation is one that fails: it is not known, and strong enough."""
        is_strong = is_counted(violation.requirement, self.fail_on)
        return is_strong and not self.is_known(result, violation)

    def level_of(self, result: Result, violation: Violation) -> str:
        """How a violation counts: as a note if it is known, and else by how strong the RFC is."""
        if self.is_known(result, violation):
            return NOTE
        return LEVELS.get(violation.requirement, ERROR)

    def as_known(self, result: Result, violation: Violation) -> Known:
        """A violation as it would be known."""
        return known_by(*self.place(result), violation)


# JUnit.


def junit(listed: Listed) -> str:
    """A test case for each trace. One whose violations are all known, or weaker than --fail-on
    says, counts as skipped."""
    suites = ElementTree.Element("testsuites")
    suite = ElementTree.SubElement(suites, "testsuite", name=NAME)
    counts = dict.fromkeys(("tests", "failures", "errors", "skipped"), 0)
    for result in listed.results:
        counts["tests"] += 1
        stacks = listed.place(result)[1]
        case = ElementTree.SubElement(
            suite,
            "testcase",
            classname=NAME if stacks == OTHER else visible(stacks),
            name=visible(result.key),
            file=visible(result.file),
        )
        kind = outcome(listed, result, case)
        if kind:
            counts[kind] += 1
        if result.with_allowances:
            ElementTree.SubElement(case, "system-out").text = allowances(result)
    for name, number in counts.items():
        suite.set(name, str(number))
    ElementTree.indent(suites)
    text = ElementTree.tostring(suites, encoding="unicode")
    return f'<?xml version="1.0" encoding="UTF-8"?>\n{text}\n'


def outcome(listed: Listed, result: Result, case: ElementTree.Element) -> str:
    """Says in a test case what became of it; the count that it belongs to, if any."""
    if result.kind == FAILED:
        ElementTree.SubElement(case, "error", message=visible(result.fault))
        return "errors"
    new = [it for it in result.violations if listed.is_failure(result, it)]
    told = new or list(result.violations)
    if not told:
        return ""
    text = "\n".join(f"{at(result, it.line)}: {text_of(result, it)}" for it in told)
    are_known = all(listed.is_known(result, it) for it in told)
    front = "" if new else "known: " if are_known else f"below --fail-on {listed.fail_on}: "
    message = front + ", ".join(it.with_level for it in told)
    name = "failure" if new else "skipped"
    element = ElementTree.SubElement(case, name, message=visible(message))
    if new:
        element.set("type", told[0].rule)
    element.text = "\n".join(map(visible, text.split("\n")))
    return "failures" if new else "skipped"


def allowances(result: Result) -> str:
    """What an accepted verdict rests on, in lines with the path and the line of the trace."""
    rows = [f"{at(result, it.line)}: {it.text}" if it.line else it.text for it in result.grounds]
    return "\n".join(map(visible, (allowed_words(result), *rows)))


def allowed_words(result: Result) -> str:
    """That a trace was accepted with allowances; and of a log, that what these say has the lines of
    its trace."""
    return f"{WITH_ALLOWANCES}, by lines of its trace" if result.is_log else WITH_ALLOWANCES


# Lines of traces and of logs.


def line_of(result: Result, line: int) -> int:
    """The line of the file that was given from which a line of the trace is; 0 if it has none."""
    if not result.is_log:
        return line
    place = result.places.get(line)
    return place.line if place else 0


def at(result: Result, line: int) -> str:
    """A line of a trace with the path of the file; of a log, the place in the log."""
    number = line_of(result, line)
    if number or not result.is_log:
        return f"{result.file}:{number}"
    place = result.places.get(line)
    return f"{result.file}: {place.text}" if place else result.file


def text_of(result: Result, violation: Violation) -> str:
    """A violation in words; if the file is a log, with the line of the trace and its place in the
    log."""
    if not result.is_log or not violation.line:
        return violation.text
    place = result.places.get(violation.line)
    where = f"Line {count(violation.line)} of the trace that this log gives"
    return f"{violation.text} ({where}{f': {place.text}' if place else ''}.)"


# SARIF.


def sarif(listed: Listed) -> str:
    """A result for each violation, at its first line: an error, a warning or a note by how strong
    the RFC is. Known ones are notes, and suppressed. What was accepted with allowances is no
    result, but a notification."""
    rules = [
        {
            "id": rule,
            "name": meaning.name,
            "shortDescription": {"text": meaning.sentence},
            "help": {"text": meaning.source},
            "defaultConfiguration": {"level": level_of_rule(rule)},
        }
        for rule, meaning in MEANINGS.items()
    ]
    failed = [
        notification("error", result.key, result.fault)
        for result in listed.results
        if result.kind == FAILED
    ]
    allowed = [notification_of(result) for result in listed.results if result.with_allowances]
    run = {
        "tool": {"driver": {"name": NAME, "version": version(), "rules": rules}},
        "invocations": [
            {"executionSuccessful": not failed, "toolExecutionNotifications": failed + allowed}
        ],
        "results": [
            sarif_of(listed, result, violation)
            for result in listed.results
            for violation in result.violations
        ],
    }
    whole = {"$schema": SCHEMA, "version": "2.1.0", "runs": [run]}
    return json.dumps(whole, indent=1, ensure_ascii=False) + "\n"


def level_of_rule(rule: str) -> str:
    """How a violation of a rule counts, or the fault of a line."""
    return LEVELS[requirement_of({"rule": rule})] if rule in RULES else ERROR


def notification(level: str, key: str, text: str) -> dict[str, Any]:
    """What there is to say of a trace that is no violation in it."""
    return {"level": level, "message": {"text": f"{visible(key)}: {visible(text)}"}}


def notification_of(result: Result) -> dict[str, Any]:
    """A trace that was accepted with allowances, with the places of what it rests on."""
    text = f"{allowed_words(result)}: {'; '.join(it.text for it in result.grounds)}"
    places = [place(result, it.line) for it in result.grounds if it.line]
    return {**notification("note", result.key, text), "locations": places}


def place(result: Result, line: int) -> dict[str, Any]:
    """A line of a trace; of a log, the place in it."""
    found: dict[str, Any] = {"artifactLocation": {"uri": uri(result.trace)}}
    number, origin = line_of(result, line), result.places.get(line)
    if number:
        found["region"] = {"startLine": number}
    elif result.is_log and origin:
        found["region"] = {"byteOffset": origin.first}
    return {"physicalLocation": found}


def sarif_of(listed: Listed, result: Result, violation: Violation) -> dict[str, Any]:
    """A violation at its first line."""
    is_known = listed.is_known(result, violation)
    said: dict[str, Any] = {
        "ruleId": violation.rule,
        "level": listed.level_of(result, violation),
        "message": {"text": visible(text_of(result, violation))},
        "locations": [place(result, violation.line)],
        "occurrenceCount": violation.count,
        "partialFingerprints": {f"{NAME}/v1": "/".join(listed.as_known(result, violation))},
    }
    if listed.known is not None:
        said["baselineState"] = "unchanged" if is_known else "new"
        said["suppressions"] = (
            [{"kind": "external", "justification": "known"}] if is_known else []
        )
    return said


def uri(path: str) -> str:
    """A path as a URI, relative if the path is."""
    return Path(path).as_uri() if Path(path).is_absolute() else quote(os.fsencode(path))


# Annotations.


def annotations(listed: Listed) -> str:
    """A command of GitHub's runner for each violation, and for each trace that failed."""
    lines = []
    for result in listed.results:
        if result.kind == FAILED:
            lines.append(annotation("error", result.file, 0, NAME, result.fault))
        for it in result.violations:
            level = NAMES_OF_LEVELS[listed.level_of(result, it)]
            title = f"{NAME} {it.with_level}"
            number, text = line_of(result, it.line), text_of(result, it)
            lines.append(annotation(level, result.file, number, title, text))
    return "".join(f"{line}\n" for line in lines)


def annotation(level: str, path: str, line: int, title: str, text: str) -> str:
    """A command that shows a text at a line of a file."""
    place = f",line={line}" if line else ""
    names = f"file={escaped(harmless(path), ANNOTATED_NAMES)}{place}"
    title = escaped(harmless(title), ANNOTATED_NAMES)
    return f"::{level} {names},title={title}::{escaped(harmless(text), ANNOTATED)}"


def escaped(text: str, by: dict[str, str]) -> str:
    """A text with escapes for what ends a command or a name in it."""
    return "".join(by.get(char, char) for char in text)
