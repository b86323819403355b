"""The verdict above a page: green, amber or red, in words, with what it rests on."""

from .failure import Failure
from .grounds import Basis, Ground
from .program import Object, Verdict
from .said import NO_SPACE, TIMERS
from .rules import meaning_of
from .texts import count, html, link, size, span
from .timers import Silence, name_of

AMBER = "amber"
MARKS = {"accepted": "\u2713", AMBER: "(\u2713)", "refused": "\u2717", "unreadable": "?"}
# So many grounds are seen at once; the others are unfolded.
SEEN_GROUNDS = 4


def kind_of(verdict: Verdict, basis: Basis) -> str:
    """Which of the marks a verdict has."""
    is_amber = verdict.kind == "accepted" and basis.is_amber
    return AMBER if is_amber else verdict.kind


def title_of(verdict: Verdict, basis: Basis) -> str:
    """A verdict as the title of the page has it."""
    if kind_of(verdict, basis) != AMBER:
        return verdict.text
    return f"{verdict.kind}, {with_what(basis)}"


def with_what(basis: Basis) -> str:
    """What a verdict rests on, in a few words."""
    if not basis.is_known:
        return "and what that rests on is not known"
    return f"with what the {'header allows' if basis.is_allowed else 'converter guessed'}"


def banner(verdict: Verdict, basis: Basis, silence: Silence | None, unit: str) -> str:
    """What stands in the banner: the verdict in a sentence, the longest silence, how the trace
    ends, and of an accepted trace what the verdict rests on."""
    last = verdict.end.said.get("last")
    try:
        end = end_of(last, unit) if last else ""
    except (KeyError, TypeError, ValueError, AttributeError) as fault:
        raise Failure(f"qaudit-why wrote an unknown end of the trace: {fault!r}") from fault
    told = " ".join(filter(None, (silence_of(silence, unit) if silence else "", end)))
    quiet = f'<p class="more">{told}</p>' if told else ""
    grounds = grounds_shown(basis) if verdict.kind == "accepted" else ""
    return f"<p>{sentence(verdict, basis)}</p>{quiet}{grounds}"


def sentence(verdict: Verdict, basis: Basis) -> str:
    """The verdict in a sentence."""
    if kind_of(verdict, basis) == AMBER:
        return f"<b>Accepted, {with_what(basis)}.</b>"
    if verdict.kind == "accepted":
        told = "In everything that the trace shows, the sender followed RFC 9002."
        return f"<b>Accepted.</b> {told}"
    word = verdict.kind.capitalize()
    line = link(verdict.line, f"line {count(verdict.line)}")
    what = f"{html(verdict.rule)} {html(verdict.name)}"
    meaning = meaning_of(verdict.rule, str(verdict.said.get("field", "")))
    return f"<b>{word} at {line}: {what}.</b> {meaning}"


def grounds_shown(basis: Basis) -> str:
    """What a verdict rests on as a list, most of which is folded away where it is long."""
    seen, more = basis.grounds[:SEEN_GROUNDS], basis.grounds[SEEN_GROUNDS:]
    told = list_of(seen) if seen else ""
    return told + (folded(more, f"{len(more)} more") if more else "")


def folded(grounds: tuple[Ground, ...], name: str) -> str:
    """Grounds that are unfolded by their names."""
    names = ", ".join(Basis(grounds).names)
    return f"<details><summary>{name}: {html(names)}</summary>{list_of(grounds)}</details>"


def list_of(grounds: tuple[Ground, ...]) -> str:
    """Grounds as a list; each links to its first line."""
    rows = "".join(
        f"<li>{link(it.line, it.title) if it.line else html(it.title)}: {html(it.told)}</li>"
        for it in grounds
    )
    return f'<ul class="grounds">{rows}</ul>'


def silence_of(silence: Silence, unit: str) -> str:
    """The longest silence."""
    long = link(silence.line, span(silence.long, unit))
    return f"Longest silence: {long}, {html(silence.text(unit))}."


def end_of(last: Object, unit: str) -> str:
    """What is in flight and awaited at the end of a trace, where a log can stop in a stall; empty
    where nothing is."""
    flying, timer = int(last["in_flight_bytes"]), TIMERS[last["set_kind"], last["set_space"]]
    if not flying and timer == NO_SPACE:
        return ""
    due = "no timer is set"
    if timer != NO_SPACE:
        due = f"the {name_of(timer)} is due at {span(int(last[f'deadline_{unit}']), unit)}"
    return f"At the end: {size(flying)} in flight, {html(due)}."
