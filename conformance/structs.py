"""Lines of a trace as the structs of include/qaudit.h: what hands them in one by one.

A command is a line of its name and of the numbers that the fields of a struct have, as library.c
and bench/programs/events.c read them. What no struct says is fed as text.
"""

import json
from collections.abc import Callable, Iterator, Mapping

from constants import MAX_PACKET_NUMBER, MAX_PACKET_SIZE, MAX_TIME, METRICS, SPACES

MAX_LINE = 65536
MAX_WORD = 2**64 - 1
SPACE_NUMBERS = {name: number for number, name in enumerate(SPACES)}
LEAVES = {"window": 0, "probe": 1, "recovery": 2}
KINDS = {"loss": 0, "pto": 1}
ROLES = {"client": 0, "server": 1}
UNITS = {"us": 0, "ns": 1}
WINDOWS = {"newreno": 0, "reported": 1}
LOSSES = {"must": 0, "may": 1}
COUNTS = {"numbers": 0, "packets": 1}
FIRST_KEYS = {
    *("event", "version", "role", "max_datagram_size"),
    *("max_ack_delay", "initial_rtt", "initial_window"),
}
SECOND_KEYS = {"timer_late_us", "refresh_min_rtt", "report_slack_us", "report_slack_bytes"}
THIRD_KEYS = {
    *("unit", "window", "window_overshoot", "sample_eliciting_only"),
    *("packet_threshold", "timer_early_us", "loss_by_number"),
    *("threshold_counts", "reset_rtt", "latest_rtt_less_delay", "time_threshold_eighths"),
    "recovery_by_order",
}
HEADER_KEYS = {
    1: FIRST_KEYS,
    2: FIRST_KEYS | SECOND_KEYS,
    3: FIRST_KEYS | SECOND_KEYS | THIRD_KEYS,
}


class NoStructError(Exception):
    """A line says nothing that a struct of C says, or more."""


Said = dict[str, object]


def said_by(line: bytes) -> Said:
    """What a line says that is an object of ASCII without numbers that have a sign."""

    def whole(text: str) -> int:
        if not text.isdigit():
            raise NoStructError(text)
        return int(text)

    if len(line) > MAX_LINE or not line.isascii():
        raise NoStructError
    try:
        value = json.loads(line.decode("ascii"), parse_int=whole)
    except ValueError:
        raise NoStructError from None
    if not isinstance(value, dict):
        raise NoStructError
    return {key: value for key, value in value.items() if value is not None}


class Fields:
    """The values of a line, each in its range, and no key beside those that are asked for."""

    def __init__(self, said: Said, keys: set[str]) -> None:
        if not said.keys() <= keys:
            raise NoStructError
        self.said = said

    def integer(self, key: str, most: int, least: int = 0, *, default: int | None = None) -> int:
        """The integer at a key, within its range."""
        value = self.said.get(key, default)
        if isinstance(value, bool) or not isinstance(value, int) or not least <= value <= most:
            raise NoStructError
        return value

    def flag(self, key: str, default: bool | None = False) -> int:
        """The boolean at a key, as a number."""
        value = self.said.get(key, default)
        if not isinstance(value, bool):
            raise NoStructError
        return int(value)

    def choice(self, key: str, names: Mapping[str, int], default: str = "") -> int:
        """The number of the name at a key."""
        value = self.said.get(key, default)
        if not isinstance(value, str) or value not in names:
            raise NoStructError
        return names[value]

    def given(self, key: str, most: int, least: int = 0) -> tuple[int, int]:
        """The integer at a key, and whether there is one."""
        if key not in self.said:
            return 0, 0
        return self.integer(key, most, least), 1

    def ranges(self) -> list[int]:
        """How many ranges there are, and then the two numbers of each."""
        value = self.said.get("ranges")
        if not isinstance(value, list) or not value:
            raise NoStructError
        numbers = [len(value)]
        for pair in value:
            if not isinstance(pair, list) or len(pair) != 2:
                raise NoStructError
            for number in pair:
                if isinstance(number, bool) or not isinstance(number, int):
                    raise NoStructError
            if not pair[0] <= pair[1] <= MAX_PACKET_NUMBER:
                raise NoStructError
            numbers += pair
        return numbers


def header(said: Said) -> list[int]:
    """The fields of a header, in the order of the struct."""
    version = said.get("version")
    if isinstance(version, bool) or not isinstance(version, int) or version not in HEADER_KEYS:
        raise NoStructError
    fields = Fields(said, HEADER_KEYS[version])
    unit = fields.choice("unit", UNITS, "us")
    scale = 1000 if unit else 1
    size = fields.integer("max_datagram_size", MAX_PACKET_SIZE, 1200)
    delay = fields.given("max_ack_delay", 16383000 * scale)
    rtt = fields.given("initial_rtt", 10**9 * scale, 1)
    window = fields.given("initial_window", 2**32 - 1, 2 * size)
    late = fields.given("timer_late_us", 10**15)
    threshold = fields.given("packet_threshold", 65535, 3)
    eighths = fields.given("time_threshold_eighths", 32, 9)
    controller = fields.choice("window", WINDOWS, "newreno")
    loss = fields.choice("loss_by_number", LOSSES, "must")
    counts = fields.choice("threshold_counts", COUNTS, "numbers")
    if loss and not controller:
        raise NoStructError
    return [
        *(size, delay[0], rtt[0], window[0], late[0]),
        fields.integer("timer_early_us", 10**9, default=0),
        fields.integer("report_slack_us", 10**9, default=0),
        fields.integer("report_slack_bytes", 2**32 - 1, default=0),
        *(threshold[0], eighths[0], fields.choice("role", ROLES), unit, controller, loss, counts),
        *(delay[1], rtt[1], window[1], late[1], threshold[1], eighths[1]),
        fields.flag("refresh_min_rtt"),
        fields.flag("window_overshoot"),
        fields.flag("sample_eliciting_only"),
        fields.flag("reset_rtt"),
        fields.flag("latest_rtt_less_delay"),
        fields.flag("recovery_by_order"),
    ]


def sent(said: Said) -> list[int]:
    """The fields of a packet."""
    keys = {"event", "time", "space", "number", "size", "eliciting", "in_flight", "leave"}
    fields = Fields(said, keys)
    eliciting, in_flight = fields.flag("eliciting", None), fields.flag("in_flight", None)
    if eliciting and not in_flight:
        raise NoStructError
    return [
        fields.integer("time", MAX_TIME),
        fields.integer("number", MAX_PACKET_NUMBER),
        fields.integer("size", MAX_PACKET_SIZE, 1),
        fields.choice("space", SPACE_NUMBERS),
        fields.choice("leave", LEAVES, "window"),
        *(eliciting, in_flight),
    ]


def ack(said: Said) -> list[int]:
    """The fields of an acknowledgment, and its ranges."""
    fields = Fields(said, {"event", "time", "space", "ranges", "delay", "limited"})
    return [
        fields.integer("time", MAX_TIME),
        fields.integer("delay", MAX_WORD, default=0),
        fields.choice("space", SPACE_NUMBERS),
        fields.flag("limited"),
        *fields.ranges(),
    ]


def lost(said: Said) -> list[int]:
    """The arguments for packets that were declared lost."""
    fields = Fields(said, {"event", "time", "space", "ranges"})
    time, space = fields.integer("time", MAX_TIME), fields.choice("space", SPACE_NUMBERS)
    return [time, space, *fields.ranges()]


def timer(said: Said) -> list[int]:
    """The fields of a timer."""
    fields = Fields(said, {"event", "time", "kind", "space"})
    return [
        fields.integer("time", MAX_TIME),
        fields.choice("kind", KINDS),
        fields.choice("space", SPACE_NUMBERS),
    ]


def discard(said: Said) -> list[int]:
    """The arguments for keys that were discarded."""
    fields = Fields(said, {"event", "time", "space"})
    spaces = {name: number for name, number in SPACE_NUMBERS.items() if name != "app"}
    return [fields.integer("time", MAX_TIME), fields.choice("space", spaces)]


def moment(said: Said) -> list[int]:
    """The argument of an event that is a time alone."""
    return [Fields(said, {"event", "time"}).integer("time", MAX_TIME)]


def metrics(said: Said) -> list[int]:
    """The fields of a report of the sender."""
    fields = Fields(said, {"event", "time", *METRICS})
    values = [fields.given(key, MAX_WORD) for key in METRICS]
    return [
        fields.integer("time", MAX_TIME),
        *(value for value, _ in values),
        *(is_given for _, is_given in values),
    ]


STRUCTS: dict[str, Callable[[Said], list[int]]] = {
    "header": header,
    "sent": sent,
    "ack": ack,
    "lost": lost,
    "timer": timer,
    "discard": discard,
    "confirmed": moment,
    "keys": moment,
    "metrics": metrics,
}


def command_of(line: bytes) -> bytes | None:
    """The command that hands a line in as a struct; None where none says it."""
    try:
        said = said_by(line)
        event = said.get("event")
        if not isinstance(event, str) or event not in STRUCTS:
            return None
        numbers = STRUCTS[event](said)
    except NoStructError:
        return None
    return " ".join([event, *map(str, numbers)]).encode() + b"\n"


def commands_of(trace: bytes) -> Iterator[bytes]:
    """The commands that hand a trace in; its last line has a struct only where an LF ends it."""
    for line in cut(trace):
        command = command_of(line[:-1]) if line.endswith(b"\n") else None
        yield command or b"feed %d\n%b" % (len(line), line)


# What the writer of the library says of a line, though the line leaves it out.
DEFAULTS: dict[str, Said] = {
    "header": {
        **{"initial_rtt": 333_000, "max_ack_delay": 25_000, "packet_threshold": 3},
        **{"report_slack_us": 0, "report_slack_bytes": 0, "timer_early_us": 0},
        **{"unit": "us", "window": "newreno", "loss_by_number": "must"},
        **{"refresh_min_rtt": False, "window_overshoot": False, "sample_eliciting_only": False},
        **{"threshold_counts": "numbers", "reset_rtt": False},
        **{"latest_rtt_less_delay": False, "time_threshold_eighths": 9},
        **{"recovery_by_order": False},
    },
    "sent": {"leave": "window"},
    "ack": {"delay": 0, "limited": False},
}


def line_of(line: bytes) -> bytes:
    """The line by which the library says what it was handed as the struct for this line."""
    said = said_by(line)
    event = str(said["event"])
    whole = {**DEFAULTS.get(event, {}), **said}
    if event == "header":
        whole["version"] = 3
        size = whole["max_datagram_size"]
        assert isinstance(size, int)
        whole.setdefault("initial_window", min(10 * size, max(14_720, 2 * size)))
        for key in ("initial_rtt", "max_ack_delay"):
            if said.get("unit") == "ns" and key not in said:
                whole[key] = 1000 * int(str(whole[key]))
    return json.dumps(whole, separators=(",", ":"), sort_keys=True).encode()


def recorded(trace: bytes) -> bytes:
    """What the library records of a trace that `commands_of` hands in."""
    return b"".join(
        line_of(line[:-1]) + b"\n"
        if line.endswith(b"\n") and command_of(line[:-1]) is not None
        else line
        for line in cut(trace)
    )


def cut(trace: bytes) -> list[bytes]:
    """The lines of a trace, each with the LF that ends it."""
    lines = [line + b"\n" for line in trace.split(b"\n")]
    lines[-1] = lines[-1][:-1]
    return [line for line in lines if line]
