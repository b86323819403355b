"""Every violation in a trace, as `qaudit-why --all --json` lists them, one for each rule."""

from dataclasses import dataclass

from .departures import departures_of
from .facts import facts_of
from .program import Object, Verdict
from .rules import MEANINGS, NOT_CONVERTED, meaning_at, requirement_of
from .texts import count


@dataclass(frozen=True)
class Violation:
    """The violations of a rule in a trace, or the fault of a line that cannot be read."""

    rule: str
    name: str
    # The value of a report (V16) or the key of a line (F3 to F5) that it is about.
    field: str
    # The first line, 0 for none, and how many lines there are.
    line: int
    count: int
    # The largest amount or the facts, in words.
    amount: str
    # How strong the RFC is there; empty of a line that cannot be read.
    requirement: str = ""

    @property
    def title(self) -> str:
        """The rule with its name and field, as `V16 metric rttvar`."""
        return " ".join(filter(None, (self.rule, self.name, self.field)))

    @property
    def with_level(self) -> str:
        """The title with how strong the RFC is, as `V16 metric rttvar (described)`."""
        return f"{self.title} ({self.requirement})" if self.requirement else self.title

    @property
    def where(self) -> str:
        """The title with the first line."""
        return f"{self.title}, line {self.line}" if self.line else self.title

    @property
    def text(self) -> str:
        """What it is, how often and by how much."""
        meaning = meaning_at(self.rule, self.field)
        told = self.title if meaning is None else f"{self.title}: {meaning.sentence}"
        if meaning is not None:
            told += f" ({meaning.source})"
        if self.count > 1:
            told += f" {count(self.count)} times, first at line {count(self.line)}."
        return f"{told} {self.amount}".strip()


def violations_of(verdict: Verdict) -> tuple[Violation, ...]:
    """The violations of a trace in the order of their first lines."""
    found = [
        Violation(
            kind.rule,
            kind.name.removesuffix(f" {kind.field}") if kind.field else kind.name,
            kind.field or "",
            kind.lines[0],
            kind.count,
            f"At most {kind.greatest}." if kind.greatest else "",
            kind.requirement,
        )
        for kind in departures_of(verdict)
    ]
    end = verdict.end
    if end.kind != "accepted":
        found.append(last_of(end))
    return tuple(sorted(found, key=lambda it: it.line))


def not_converted(reason: str) -> Violation:
    """That a log gives no trace, and why, as the converter says it."""
    return Violation(NOT_CONVERTED, MEANINGS[NOT_CONVERTED].name, "", 0, 1, reason)


def last_of(end: Verdict) -> Violation:
    """The violation, or the line that cannot be read, at which the audit of a trace ends."""
    said = end.said
    field = str(said.get("field", said.get("key", "")))
    name, amount = str(said.get("name", "")), amount_of(said)
    return Violation(end.rule, name, field, end.line, 1, amount, requirement_of(said))


def amount_of(said: Object) -> str:
    """The facts of a refusal in words."""
    unit = "ns" if "time_ns" in said else "us"
    facts = "; ".join(f"{name} {value}" for name, value in facts_of(said, unit))
    return f"{facts[:1].upper()}{facts[1:]}." if facts else ""
