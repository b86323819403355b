#!/usr/bin/env python3
"""Writes the files of this folder that go by kind of line, and orders.lines with orders.said.

For each kind of line, NAME.lines holds lines and NAME.said the answer to each; orders.lines has
good lines of every kind with their keys in several orders. All follow from TABLES, which has the
tables of docs/format.md row by row, and from the order in which that page says that faults are
judged. No program that reads lines has a part in it.

A lone byte XX that is no UTF-8 is written \\udcXX here.
"""

import itertools
import sys
from collections.abc import Iterable, Iterator
from enum import IntEnum
from pathlib import Path
from typing import NamedTuple

sys.path.append(str(Path(__file__).resolve().parents[1]))

from runners import Parser, Result, Results, tell  # noqa: E402

FOLDER = Path(__file__).resolve().parent

# What an absent key means: a fault, or that the written line has no such key, or else a value; or
# another kind of line, so that it is never absent in this one.
FAULT = "a fault"
LEFT_OUT = "left out"
OTHER_KIND = "another kind of line"

# fmt: off

# Values of a wrong kind.

NOT_INTEGER = (
    "-1", "5.0", "0.0", "0.5", "1.0", "2.0", "1200.0", "1e3", "1E0", "12e2", "1.2e3", "5e-1", "-0",
    "-0.0", "-5.0",
    "18446744073709551616", "18446744073709551615.0", "-9223372036854775808",
    "-9223372036854775809",
    "100000000000000000000000000000", "1e308", "1e-400", '"5"', '"1"', '""', '"none"', "[5]", "[]",
    "{}", "true", "false",
)
NOT_STRING = (
    "5", "0", "1", "-1", "-0", "0.5", "1e3", "18446744073709551616", "true", "false",
    '["app"]', '["initial"]', "[]", "{}", '{"app":1}', "[null]",
)
NOT_BOOLEAN = (
    "1", "0", "-1", "-0", "1.0", "0.0", "1e0", "18446744073709551616", '"true"', '"false"', '""',
    "[true]", "[]", "{}", '{"true":true}',
)
NOT_RANGES = (
    # An element is no list of two integers, behind one that is no range.
    "[[4,3],[1]]", "[[4,3],5]", "[[4,3],[3,-1]]", "[[4,3],null]", "[[4,3],[3,3],[1,2,3]]",
    '[[4,3],[4,3],["3",3]]',
    "[[0,4611686018427387904],[0,18446744073709551616]]", "[[18446744073709551615,0],[]]",
    # No list.
    "3", "0", "0.5", "-1", "true", "false", '""', '"[[3,3]]"', "{}", '{"0":[3,3]}',
    '{"ranges":[[3,3]]}',
    # An element is no list of two.
    "[3]", "[3,3]", "[3,4]", "[null]", "[true]", '["3,3"]', "[{}]", '[{"0":3,"1":3}]', "[[]]",
    "[[3]]", "[[3,3,3]]",
    "[[3,3,3,3]]", "[[3,3,null]]", "[[[3,3]]]", "[[3,3],3]", "[[3,3],[]]", "[[3,3],[3],[3,3]]",
    "[[3,3],[3,3],[3,3,3]]",
    "[[3,3],null]", "[[],[]]", "[[[]],[3,3]]",
    # An element of a list of two is no integer.
    "[[3.0,3]]", "[[3,3.0]]", "[[3,4.0]]", "[[0.5,3]]", "[[1e3,1000]]", "[[0,1e3]]", "[[-1,3]]",
    "[[3,-1]]", "[[-0,3]]",
    "[[0,-0]]", '[["3",3]]', '[[3,"3"]]', "[[null,3]]", "[[3,null]]", "[[null,null]]", "[[true,3]]",
    "[[3,false]]",
    "[[[3],3]]", "[[3,[3]]]", "[[3,{}]]", "[[{},3]]", "[[18446744073709551616,3]]",
    "[[3,18446744073709551616]]",
    "[[18446744073709551616,0]]", "[[0,18446744073709551616]]",
    "[[0,100000000000000000000000000000]]",
    "[[3,3],[3,3.0]]", "[[3,3],[3,-1]]", "[[3,3],[-1,3],[3,3]]", "[[3,3],[3.0,3],[3,3]]",
)

# Integers and strings that are out of range.

MAX = "18446744073709551615"
OTHER_SPACES = (
    '"App"', '"APP"', '""', '"apps"', '"ap"', '" app"', '"app "', '"1rtt"', '"0rtt"',
    '"application"', '"app\\u0000"',
    '"Initial"', '"initials"', '"Handshake"', '"handshakes"', '"null"', '"window"',
)
OTHER_EVENTS = (
    '""', '" "', '"null"', '"event"', '"Header"', '"HEADER"', '"headers"', '"Sent"', '"SENT"',
    '"sen"', '"sents"', '"sent "',
    '"Ack"', '"ACK"', '"acks"', '"ac"', '" ack"', '"ack "', '"ack\\u0000"', '"acc\\u006b"',
    '"Lost"', '"loss"',
    '"Timer"', '"timers"', '"pto"', '"Discard"', '"discarded"', '"Confirmed"', '"confirm"',
    '"Keys"', '"key"',
    '"Metrics"', '"metric"', '"\\u00e9"', '"sent\\n"',
)


# fmt: on

Values = tuple[str, ...]


class Key(NamedTuple):
    """A row of a table: its key, and values of it. The first good value is the usual one."""

    name: str
    good: Values
    wrong: Values
    out: Values = ()
    absent: str = FAULT
    # Values that are judged after all other keys, and the fault that they have.
    judged_last: Values = ()
    last_fault: str = ""


# fmt: off


TIME = Key("time", ("5", "0", "1", "1000000000000000"), NOT_INTEGER, ("1000000000000001", MAX))
SPACE = Key("space", ('"app"', '"initial"', '"handshake"'), NOT_STRING, OTHER_SPACES)
RANGES = Key(
    "ranges",
    (
        "[[3,3]]", "[[0,0]]", "[[0,4611686018427387903]]",
        "[[4611686018427387903,4611686018427387903]]",
        # Equal, in any order, touching, overlapping, one within another.
        "[[3,3],[3,3]]", "[[3,3],[0,1]]", "[[3,3],[0,3]]", "[[7,9],[0,3],[2,8]]",
        "[[0,3],[4,5],[6,6]]", "[[6,6],[4,5],[0,3]]",
        "[[5,6],[0,4611686018427387903],[1,1],[5,6]]", "[[10,12],[0,4611686018427387903],[5,5]]",
        "[[0,2],[4,4]]",
        # A thousand and one of them.
        "[" + "[2,3],[0,1]," * 500 + "[5,5]]",
    ),
    NOT_RANGES,
    (
        "[[4,3]]", "[]", "[[1,0]]", "[[3,3],[4,3]]", "[[4,3],[3,3]]", "[[3,3],[4,3],[3,3]]",
        "[[0,4611686018427387904]]",
        "[[4611686018427387904,4611686018427387904]]", "[[4611686018427387904,3]]",
        "[[4611686018427387903,4611686018427387902]]", "[[3,3],[0,4611686018427387904]]",
        f"[[0,{MAX}]]", f"[[{MAX},{MAX}]]", f"[[{MAX},0]]",
    ),
)


def metric(name: str, usual: str) -> Key:
    """The row of a reported value, which may be any integer of 64 bits."""
    good = (usual, "0", "9223372036854775807", "9223372036854775808", MAX)
    return Key(name, good, NOT_INTEGER, absent=LEFT_OUT)


def unit(name: str, absent: str) -> Key:
    """The row of the unit of times in a header with times in this one."""
    others = ('"ms"', '"Us"', '"US"', '"NS"', '""', '"u"', '"s"', '"us "', '" ns"', '"nss"')
    return Key("unit", (f'"{name}"',), NOT_STRING, others, absent)


def header(version: str, *words: Key, scale: int = 1) -> tuple[Key, ...]:
    """The table of a header in any version, with the rows of words that the version has behind the
    role, and times of which so many are a microsecond."""
    longest_delay, longest_rtt = 16383000 * scale, 1000000000 * scale
    return (
        Key(
            "version", (version,), NOT_INTEGER,
            judged_last=("9", "0", "10", MAX), last_fault="F10 version",
        ),
        Key(
            "role", ('"client"', '"server"'), NOT_STRING,
            ('"Client"', '""', '"clients"', '"server "', '"proxy"'),
        ),
        *words,
        Key(
            "max_datagram_size", ("1200", "1201", "65527"), NOT_INTEGER,
            ("1199", "0", "1", "65528", MAX),
        ),
        Key(
            "max_ack_delay", ("25001", "0", f"{longest_delay}"), NOT_INTEGER,
            (f"{longest_delay + 1}", MAX), f"{25000 * scale}",
        ),
        Key(
            "initial_rtt", ("333001", "1", f"{longest_rtt}"), NOT_INTEGER,
            ("0", f"{longest_rtt + 1}", MAX), f"{333000 * scale}",
        ),
        Key(
            "initial_window", ("131054", "131055", "4294967295"), NOT_INTEGER,
            ("2399", "0", "4294967296", MAX), "12000",
        ),
    )


# The keys of a header that have a meaning in versions 2 and 3 alone.
OPTIONS = (
    Key(
        "timer_late_us", ("7", "0", "1000000000000000"), NOT_INTEGER,
        ("1000000000000001", MAX), LEFT_OUT,
    ),
    Key("refresh_min_rtt", ("true", "false"), NOT_BOOLEAN, absent="false"),
    Key("report_slack_us", ("1", "0", "1000000000"), NOT_INTEGER, ("1000000001", MAX), "0"),
    Key("report_slack_bytes", ("2", "0", "4294967295"), NOT_INTEGER, ("4294967296", MAX), "0"),
)

# Those that have one in version 3 alone: behind the unit, and at the end.
REPORTED = '"reported"'
MAY, MUST = '"may"', '"must"'
NUMBERS = '"numbers"'
WINDOW = Key(
    "window", (REPORTED, '"newreno"'), NOT_STRING,
    (
        '"Reported"', '"REPORTED"', '"report"', '"reported "', '"NewReno"', '"newReno"', '"reno"',
        '" newreno"', '""', '"cubic"', '"bbr"', '"none"', '"12000"',
    ),
    '"newreno"',
)
CHOICES = (
    Key("window_overshoot", ("true", "false"), NOT_BOOLEAN, absent="false"),
    Key("sample_eliciting_only", ("true", "false"), NOT_BOOLEAN, absent="false"),
    Key("packet_threshold", ("4", "3", "65535"), NOT_INTEGER, ("2", "0", "65536", MAX), "3"),
    Key("timer_early_us", ("8", "0", "1000000000"), NOT_INTEGER, ("1000000001", MAX), "0"),
    Key(
        "loss_by_number", (MAY, MUST), NOT_STRING,
        (
            '"Must"', '"MUST"', '"must "', '" may"', '"May"', '"MAY"', '"maybe"', '"mus"', '""',
            '"none"', '"3"', REPORTED,
        ),
        MUST,
    ),
    Key(
        "threshold_counts", ('"packets"', NUMBERS), NOT_STRING,
        (
            '"Packets"', '"PACKETS"', '"packet"', '"packets "', '" numbers"', '"number"',
            '"Numbers"', '""', '"both"', '"3"', MUST,
        ),
        NUMBERS,
    ),
    Key("reset_rtt", ("true", "false"), NOT_BOOLEAN, absent="false"),
    Key("latest_rtt_less_delay", ("true", "false"), NOT_BOOLEAN, absent="false"),
    Key("time_threshold_eighths", ("10", "9", "32"), NOT_INTEGER, ("8", "0", "33", MAX), "9"),
    Key("recovery_by_order", ("true", "false"), NOT_BOOLEAN, absent="false"),
)

# The tables, without the key `event`, by the names of their files. The usual initial window is one
# for every datagram size, and what is out of its range, or is its value where it is absent, is so
# for datagrams of 1200 bytes. Where losses may be declared the window has to be a reported one, as
# is usual.
TABLES: dict[str, tuple[Key, ...]] = {
    "header": header("1"),
    "header-2": (*header("2"), *OPTIONS),
    "header-3": (*header("3", unit("us", '"us"'), WINDOW), *OPTIONS, *CHOICES),
    "header-3-ns": (*header("3", unit("ns", OTHER_KIND), WINDOW, scale=1000), *OPTIONS, *CHOICES),
    "sent": (
        TIME,
        SPACE,
        Key("number", ("7", "0", "4611686018427387903"), NOT_INTEGER, ("4611686018427387904", MAX)),
        Key("size", ("1200", "1", "65527"), NOT_INTEGER, ("0", "65528", MAX)),
        Key("eliciting", ("true", "false"), NOT_BOOLEAN),
        Key(
            "in_flight", ("true",), NOT_BOOLEAN,
            judged_last=("false",), last_fault="F9 flags-clash",
        ),
        Key(
            "leave", ('"probe"', '"window"', '"recovery"'), NOT_STRING,
            ('"Window"', '""', '"windo"', '"windows"', '"pto"', '"app"'), '"window"',
        ),
    ),
    "ack": (
        TIME,
        SPACE,
        RANGES,
        Key("delay", ("7", "0", "9223372036854775808", MAX), NOT_INTEGER, absent="0"),
        Key("limited", ("true", "false"), NOT_BOOLEAN, absent="false"),
    ),
    "lost": (TIME, SPACE, RANGES),
    "timer": (
        TIME,
        Key(
            "kind", ('"loss"', '"pto"'), NOT_STRING,
            ('"Loss"', '""', '"losses"', '"PTO"', '"pto "', '"app"'),
        ),
        SPACE,
    ),
    "discard": (
        TIME,
        Key("space", ('"initial"', '"handshake"'), NOT_STRING, ('"app"', *OTHER_SPACES)),
    ),
    "confirmed": (TIME,),
    "keys": (TIME,),
    "metrics": (
        TIME,
        metric("window", "1"),
        metric("ssthresh", "2"),
        metric("bytes_in_flight", "3"),
        metric("latest_rtt", "4"),
        metric("min_rtt", "5"),
        metric("smoothed_rtt", "6"),
        metric("rttvar", "7"),
    ),
}

# White space that JSON takes and that no line ends with.
SPACES = ("\r", " ", "\t", " \r\t ")

# Members whose key no table has. With one of the first a line is as without it; with one of the
# second it is not JSON.
IGNORED = (
    '"x":null', '"x":-0', '"x":1e308', '"x":1e-400', '"x":18446744073709551616',
    '"x":"\\ud83d\\ude00"',
    '"x":{"event":5,"time":-1,"x":[[],{},[{}]]}', '"x":[{"time":null},{"event":"acks"}]',
    '"Event":5', '"EVENT":"ack"',
    '"event ":"ack"', '"Time":-1', '"TIME":-1', '" time":-1', '"time\\\\":-1', '"\\"time\\"":-1',
    '"\\u0000time":-1', '"":""',
    # Lists.
    '"x":[]', '"x":[ ]', '"x":["a"]', '"x":["a","b c"]', '"x":[1,"a",true,false,null]',
    '"x":[ 1 ,\t2 ]', '"x":["\\u0061","b"]', '"x":["\u00e9"]', '"x":[[]]', '"x":[[1],2]',
    '"x":[1,[2]]', '"x":[{},1]', '"x":[1,{"y":[2]}]', '"x":[-1,0.5]', '"x":[18446744073709551616]',
    '"time ":[5]', '"events":["ack"]',
)
NOT_JSON = (
    '"x":1e400', '"x":-1e400', '"x":[{"y":1e400}]', '"x":1.5e309', '"x":"\\ud800"', '"x":"\\udc00"',
    '"x":"\\uDBFFx"',
    '"x":"\\ud83d\\u0041"', '"x":"\\ud83d\\ud83d"', '"x":"\\ude00\\ud83d"', '"\\ud800":0',
    '"\\udc00":0', '"x":[{"\\ud800":0}]',
    '"x":"\udcff"', '"x":"\udcc0\udc80"', '"x":"\udced\udca0\udc80"', '"x":"\udce2\udc82"',
    '"x":"\udcf4\udc90\udc80\udc80"',
    '"\udc80":0', '"x":[{"\udcff":0}]', '"x":"\x1f"', '"x":"\\x41"', '"x":00', '"x":nul', '"x":',
    '"x"', "",
    # Lists.
    '"x":[1,]', '"x":[,1]', '"x":[,]', '"x":[1,,2]', '"x":[1 2]', '"x":["a" "b"]', '"x":["a",]',
    '"x":[1', '"x":[1,', '"x":[', '"x":["a"}', '"x":["a]', '"x":[00]', '"x":[1a]', '"x":[nul]',
    '"x":[1]]', '"x":]', '"x":["a\x1f"]', '"x":["\udcff"]',
)


# fmt: on


class Round(IntEnum):
    """The rounds in which faults are judged."""

    EVENT = 0
    MISSING = 1
    KIND = 2
    RANGE = 3
    LAST = 4


class Rank(NamedTuple):
    """When a fault is judged: its round, and in that round the row of the table."""

    round: Round
    row: int = 0


class Fault(NamedTuple):
    """A fault that a line gets where a key has a value, or is absent where the value is None. Of
    two faults the one with the lower rank is named."""

    rank: Rank
    name: str
    value: str | None
    said: str


# A key and the text of its value.
Member = tuple[str, str]
Members = list[Member]
# Other values of keys; a key whose value is None is absent.
Changes = dict[str, str | None]
# A line, and the answer to it.
Case = tuple[str, str]


def event_of(kind: str) -> str:
    """The event of the lines of this kind."""
    return kind.split("-")[0]


def faults_of(kind: str) -> Iterator[Fault]:
    """Each fault that one key gives a line of this kind."""
    of_event = Rank(Round.EVENT)
    for absent in (None, "null"):
        yield Fault(of_event, "event", absent, "F3 missing event")
    for value in (*NOT_STRING, f'["{event_of(kind)}"]'):
        yield Fault(of_event, "event", value, "F4 wrong-kind event")
    for value in OTHER_EVENTS:
        yield Fault(of_event, "event", value, "F6 unknown-event")
    for row, key in enumerate(TABLES[kind]):
        yield from faults_of_key(row, key)


def faults_of_key(row: int, key: Key) -> Iterator[Fault]:
    """Each fault that the key of a row gives."""
    for absent in (None, "null") if key.absent == FAULT else ():
        yield Fault(Rank(Round.MISSING, row), key.name, absent, f"F3 missing {key.name}")
    for value in key.wrong:
        yield Fault(Rank(Round.KIND, row), key.name, value, f"F4 wrong-kind {key.name}")
    for value in key.out:
        yield Fault(Rank(Round.RANGE, row), key.name, value, f"F5 out-of-range {key.name}")
    for value in key.judged_last:
        yield Fault(Rank(Round.LAST, row), key.name, value, key.last_fault)


def first_faults_of(kind: str) -> list[Fault]:
    """Of the faults that differ in their value alone the first; an absent key and a null differ."""
    found: dict[tuple[str, str, bool], Fault] = {}
    for fault in faults_of(kind):
        found.setdefault((fault.name, fault.said, fault.value is None), fault)
    return list(found.values())


# Lines, as lists of pairs of a key and its value.


def object_text(members: Iterable[Member]) -> str:
    """The line with these members."""
    return "{" + ",".join(f'"{name}":{value}' for name, value in members) + "}"


def usual(kind: str) -> Members:
    """The members of a line with the usual values."""
    keys = ((key.name, key.good[0]) for key in TABLES[kind])
    return [("event", f'"{event_of(kind)}"'), *keys]


def changed(kind: str, changes: Changes) -> Members:
    """The usual line with these values, which stand where the usual ones did. Where they have
    another window than a reported one, and say nothing of losses, these must be declared."""
    if changes.get("window", REPORTED) != REPORTED:
        changes = {"loss_by_number": MUST, **changes}
    values = ((name, changes.get(name, value)) for name, value in usual(kind))
    return [(name, value) for name, value in values if value is not None]


def changed_at_the_end(kind: str, changes: Changes) -> Members:
    """The usual line with these values, which stand in their own order behind what is not
    changed."""
    kept = [(name, value) for name, value in usual(kind) if name not in changes]
    return kept + [(name, value) for name, value in changes.items() if value is not None]


def written(kind: str, members: Members) -> str:
    """The text that is written for a good line: each key of the table, in order of their bytes."""
    given = {name: value for name, value in members if value != "null"}
    values = {key.name: given.get(key.name, key.absent) for key in TABLES[kind]}
    whole = sorted({"event": f'"{event_of(kind)}"', **values}.items())
    return object_text((name, value) for name, value in whole if value != LEFT_OUT)


# Cases.


def optional_keys(kind: str) -> list[Key]:
    """The keys of a table that may be absent."""
    return [key for key in TABLES[kind] if key.absent not in (FAULT, OTHER_KIND)]


def good_lines(kind: str) -> Iterator[Members]:
    """Lines that are all good: values at their edges, and keys that are absent."""
    table = TABLES[kind]
    for at in (0, 1, -1):
        yield changed(kind, {key.name: key.good[at % len(key.good)] for key in table})
    for key in table:
        for value in key.good:
            yield changed(kind, {key.name: value})
    yield from lines_without(kind)
    if kind == "sent":
        yield changed(kind, {"eliciting": "false", "in_flight": "false"})
    yield usual(kind)[::-1]
    yield from lines_with_a_key_twice(kind)
    yield from lines_with_keys_of_others(kind)


def lines_without(kind: str) -> Iterator[Members]:
    """Lines without each set of the keys that may be absent, of more than eight without each one,
    each two and all of them, and with null for each and for all."""
    names = [key.name for key in optional_keys(kind)]
    are_few = len(names) <= 8
    for are_kept in itertools.product((True, False), repeat=len(names)):
        if are_few or are_kept.count(False) <= 2 or not any(are_kept):
            absent = (name for name, is_kept in zip(names, are_kept, strict=True) if not is_kept)
            yield changed(kind, {name: None for name in absent})
    for name in names:
        yield changed(kind, {name: "null"})
    yield changed(kind, {name: "null" for name in names})


def lines_with_a_key_twice(kind: str) -> Iterator[Members]:
    """Lines of events with a key twice, of whose values the later one counts; in the order of the
    table and in ascending order."""
    if event_of(kind) == "header":
        return
    for key in TABLES[kind]:
        for members in (usual(kind), sorted(usual(kind))):
            yield [*members, (key.name, key.good[-1])]
            yield [members[0], (key.name, key.good[-1]), *members[1:]]


def lines_with_keys_of_others(kind: str) -> Iterator[Members]:
    """Lines with keys of other kinds of lines, which are ignored, whatever their value."""
    own = {name for name, _ in usual(kind)}
    others = sorted({key.name for rows in TABLES.values() for key in rows} - own)
    for name in others:
        yield [(name, "-1"), *usual(kind)]
    yield [*usual(kind), *((name, "[[4,3],[1]]") for name in others)]


def short_of(kind: str) -> Members:
    """The usual line with the keys that it needs alone."""
    return changed(kind, {key.name: None for key in optional_keys(kind)})


def good_cases(kind: str) -> Iterator[Case]:
    """Good lines, also with white space between tokens and with members that no table has."""
    for members in good_lines(kind):
        yield object_text(members), written(kind, members)
    said = written(kind, usual(kind))
    spaced = object_text(usual(kind)).replace(",", " , ").replace("[", "[ ").replace("]", " ]")
    yield spaced + "\r", said
    apart = "\r,\t".join(f' "{name}"\r:\t{value}' for name, value in usual(kind))
    yield "\t\r {" + apart + " } \t\r\r", said
    yield from cases_with_ends(kind)
    said = written(kind, short_of(kind))
    for short in (object_text(short_of(kind)), object_text(sorted(short_of(kind)))):
        for member in IGNORED:
            yield f"{{{member},{short[1:]}", said
            yield f"{short[:-1]},{member}}}", said


def cases_with_ends(kind: str) -> Iterator[Case]:
    """Good lines, in the order of the table and in ascending order, with white space before and
    behind the brace at their end, and with two members there that no table has."""
    said = written(kind, usual(kind))
    for members in (usual(kind), sorted(usual(kind))):
        text = object_text(members)
        for space in SPACES:
            yield text + space, said
            yield f"{text[:-1]}{space}}}", said
            yield f'{text[:-1]}{space},"x":{{}}{space}}}{space}', said
        yield f'{text[:-1]},"x":-1,"y":"\u00e9"}}', said


def json_cases(kind: str) -> Iterator[Case]:
    """Lines that are not JSON, or no object: cut at each byte, with a bad member, with more behind
    them."""
    whole, short = object_text(usual(kind)), object_text(short_of(kind))
    in_order = object_text(sorted(short_of(kind)))
    for end in range(1, len(whole)):
        yield whole[:end], "F1 not-json"
    for member in NOT_JSON:
        yield f"{short[:-1]},{member}}}", "F1 not-json"
        yield f"{in_order[:-1]},{member}}}", "F1 not-json"
    yield short + short, "F1 not-json"
    yield short + "}", "F1 not-json"
    yield f"[{short}]", "F2 not-object"


def fault_cases(kind: str) -> Iterator[Case]:
    """Lines with one fault, and with each two faults of two keys, which stand in both orders."""
    for fault in faults_of(kind):
        yield object_text(changed(kind, {fault.name: fault.value})), fault.said
    for first, second in itertools.combinations(first_faults_of(kind), 2):
        if first.name != second.name:
            said = min(judged(first, second), key=lambda fault: fault.rank).said
            for pair in ((first, second), (second, first)):
                members = changed_at_the_end(kind, {fault.name: fault.value for fault in pair})
                yield object_text(members), said
    yield from spared_cases(kind)


def spared_cases(kind: str) -> Iterator[Case]:
    """Headers where losses may be declared, though the window is none that is reported; by itself
    and with each fault of another key, which stands before it and behind."""
    names = [key.name for key in TABLES[kind]]
    if "loss_by_number" not in names:
        return
    rank = Rank(Round.RANGE, names.index("loss_by_number"))
    fault = Fault(rank, "loss_by_number", MAY, "F5 out-of-range loss_by_number")
    for window in (None, "null", '"newreno"'):
        changes: Changes = {"window": window, fault.name: fault.value}
        yield object_text(changed(kind, changes)), fault.said
        yield object_text(changed_at_the_end(kind, dict(reversed(changes.items())))), fault.said
    for other in first_faults_of(kind):
        if other.name not in changes:
            said = min(judged(fault, other), key=lambda it: it.rank).said
            for pair in ((fault, other), (other, fault)):
                values = {it.name: it.value for it in pair}
                yield object_text(changed_at_the_end(kind, {"window": None, **values})), said


def orders_of(members: Members) -> list[Members]:
    """All orders of up to four members; of more, those that go round from each member, forwards and
    backwards, and the ascending one."""
    if len(members) <= 4:
        return [list(order) for order in itertools.permutations(members)]
    lines = (members, members[::-1])
    turned = [line[at:] + line[:at] for line in lines for at in range(len(members))]
    return [*turned, sorted(members)]


def order_cases(kind: str) -> Iterator[Case]:
    """Good lines in several orders. The keys that may be absent have another value than an absent
    key stands for, or that very value; or they are left out, all of them or one."""
    optional = optional_keys(kind)
    without_one: list[Changes] = [{key.name: None} for key in optional]
    choices: list[Changes] = [
        {},
        {key.name: key.absent for key in optional if key.absent != LEFT_OUT},
        {key.name: None for key in optional},
        *without_one,
    ]
    for changes in choices:
        for members in orders_of(changed(kind, changes)):
            yield object_text(members), written(kind, members)


def judged(*faults: Fault) -> list[Fault]:
    """Those of the faults that are judged: in a header of an unknown version the unit, the window
    and the options mean nothing."""
    if any(fault.rank.round == Round.LAST and fault.name == "version" for fault in faults):
        options = ["unit", *(key.name for key in (WINDOW, *OPTIONS, *CHOICES))]
        return [fault for fault in faults if fault.name not in options]
    return list(faults)


# Files.


def cases_by_file() -> Iterator[tuple[str, Iterable[Case]]]:
    """The cases of each file, by its name."""
    for kind in TABLES:
        yield kind, itertools.chain(good_cases(kind), json_cases(kind), fault_cases(kind))
    yield "orders", itertools.chain.from_iterable(map(order_cases, TABLES))


def files() -> Iterator[tuple[Path, bytes]]:
    """Each file that is written, with its bytes. A line that comes up twice stands there once."""
    for name, cases in cases_by_file():
        answers: dict[str, str] = {}
        for line, said in cases:
            assert answers.setdefault(line, said) == said, line
        for suffix, texts in (("lines", answers.keys()), ("said", answers.values())):
            text = "".join(f"{text}\n" for text in texts)
            yield FOLDER / f"{name}.{suffix}", text.encode("utf-8", "surrogateescape")


def results() -> Results:
    """Whether each file is what is written."""
    for path, data in files():
        is_right = path.is_file() and path.read_bytes() == data
        yield Result(path.name, "" if is_right else "not what make.py writes")


def main() -> int:
    """Reads the arguments, and returns the exit status."""
    parser = Parser(__doc__)
    check = "write nothing, and fail where a file is not what would be written"
    parser.add_argument("--check", action="store_true", help=check)
    if parser.parse_args().check:
        return tell(results())
    for path, data in files():
        path.write_bytes(data)
    return 0


if __name__ == "__main__":
    sys.exit(main())
