"""The departures from the rules of conduct that `qaudit-why --all --json` tells of, as a table."""

from collections import Counter
from collections.abc import Iterable
from dataclasses import dataclass

from .banner import folded, with_what
from .facts import facts_of
from .failure import Failure
from .grounds import Basis
from .program import Object, Verdict
from .rules import REQUIREMENTS, meaning_of, requirement_of
from .texts import count, html, link, milliseconds, pairs, plural, size

# Of a kind so many lines are seen at once; the others are unfolded.
SEEN_LINES = 12
UNITS = ("us", "ns")


@dataclass(frozen=True)
class Departures:
    """The departures of a kind: its rule, how many there are, at which lines the first of them, the
    greatest amount in words, which is empty where there is none, and how strong the RFC is."""

    rule: str
    name: str
    field: str | None
    count: int
    greatest: str
    lines: list[int]
    requirement: str


def departures_of(verdict: Verdict) -> list[Departures]:
    """The departures of each kind that a program tells of; none where it does not go past any."""
    try:
        return [departures(said) for said in verdict.said.get("departures", [])]
    except (KeyError, TypeError, ValueError, AttributeError) as fault:
        raise Failure(f"qaudit-why wrote unknown violations: {fault!r}") from fault


def departures(said: Object) -> Departures:
    """The departures of one kind."""
    field = said.get("field")
    name = f"{said['name']} {field}" if field else str(said["name"])
    lines = [int(line) for line in said["lines"]]
    times, requirement = int(said["count"]), requirement_of(said)
    return Departures(str(said["rule"]), name, field, times, greatest(said), lines, requirement)


def greatest(said: Object) -> str:
    """The greatest amount of a kind; empty where it has none."""
    if "greatest_bytes" in said:
        return size(int(said["greatest_bytes"]))
    unit = next((it for it in UNITS if f"greatest_{it}" in said), None)
    return "" if unit is None else milliseconds(int(said[f"greatest_{unit}"]), unit)


# HTML.


def section_of(verdict: Verdict, basis: Basis, unit: str) -> str:
    """The table of all departures and how the trace ends past them, with what it rests on where
    that is accepted, folded to a line; empty where there are none."""
    kinds = departures_of(verdict)
    if not kinds:
        return ""
    names = ("rule", "what it is", "how often", "by at most", "lines")
    head = "".join(f'<th scope="col">{name}</th>' for name in names)
    rows = "".join(map(row_of, kinds))
    rest = folded(basis.grounds, "What it rests on") if basis.grounds else ""
    return (
        f'<details id="departures"><summary>{sentence_of(verdict, basis, kinds)}</summary>'
        f"{end_of(verdict.end, unit)}{rest}"
        f"<table><thead><tr>{head}</tr></thead><tbody>{rows}</tbody></table></details>"
    )


def by_level(kinds: Iterable[Departures]) -> str:
    """How often the sender departs by how strong the RFC is there, from the strongest on."""
    counts = Counter[str]()
    for kind in kinds:
        counts[kind.requirement] += kind.count
    return ", ".join(f"{count(counts[it])} {it}" for it in REQUIREMENTS if counts[it])


def sentence_of(verdict: Verdict, basis: Basis, kinds: list[Departures]) -> str:
    """How often the sender departs, and how the trace ends past that, in a sentence."""
    total, events = sum(kind.count for kind in kinds), verdict.said.get("events")
    times = "once" if total == 1 else f"{count(total)} times"
    among = f" in {plural(events, 'event')}" if isinstance(events, int) else ""
    begins = f"The sender breaks rules <b>{times}{among}</b> ({by_level(kinds)})."
    end = verdict.end
    if end.kind == "accepted" and basis.is_amber:
        return f"{begins} Everything else in the trace is accepted, {with_what(basis)}."
    if end.kind == "accepted":
        return f"{begins} Everything else in the trace follows RFC 9002."
    line = link(end.line, f"line {count(end.line)}")
    ends = "is refused" if end.kind == "refused" else "cannot be read"
    what = f"{html(end.rule)} {html(end.name)}"
    return f"{begins} After that the trace {ends} at {line}: <b>{what}.</b>"


def end_of(end: Verdict, unit: str) -> str:
    """What the rule says by which a trace ends past departures, and the amounts that decide."""
    if end.kind == "accepted":
        return ""
    facts = facts_of(end.said, unit)
    told = f'<dl class="facts">{pairs(facts)}</dl>' if facts else ""
    return f"<p>{meaning_of(end.rule, str(end.said.get('field', '')))}</p>{told}"


def row_of(kind: Departures) -> str:
    """The row of a kind."""
    return (
        f'<tr><th scope="row">{html(kind.rule)} {html(kind.name)}</th>'
        f'<td class="meaning">{meaning_of(kind.rule, kind.field or "")}</td>'
        f'<td data-name="how often">{count(kind.count)}</td>'
        f'<td data-name="by at most">{html(kind.greatest)}</td>'
        f'<td class="links">{links_of(kind)}</td></tr>'
    )


def links_of(kind: Departures) -> str:
    """Links to the lines of a kind, most of which are folded away where there are many."""
    links = [link(line, count(line)) for line in kind.lines]
    seen, more = " ".join(links[:SEEN_LINES]), links[SEEN_LINES:]
    if not more:
        return seen
    is_cut = kind.count > len(links)
    cut = f", of {count(kind.count)} in all" if is_cut else ""
    named = f"{count(len(more))} more{cut}"
    return f"{seen} <details><summary>{named}</summary>{' '.join(more)}</details>"
