"""What was guessed, and what was left out, counted and told."""

from collections import Counter
from enum import Enum


class Guess(Enum):
    """What a log does not say and a line of the trace says all the same."""

    DATAGRAM_BY_WINDOW = "max_datagram_size: the first window by the datagrams that it has"
    DATAGRAM_BY_PACKET = "max_datagram_size: the largest packet that was sent"
    DATAGRAM_LEAST = "max_datagram_size: 1200, for no packet was larger"
    NO_MAX_ACK_DELAY = "max_ack_delay: 25 ms, for the peer's is not logged"
    NO_WINDOW = "window: newreno, for no window is logged"
    HIDDEN_WINDOW = "initial_window: the greatest, for no window is logged, so none is judged"
    INITIAL_RTT = "initial_rtt: that of the stack's sources or documentation"
    PROBE_BY_COUNT = "a probe timeout and its space: pto_count rose"
    PROBE_BY_PING = "a probe timeout and its space: a PING was sent"
    PROBE_BY_ROOM = "a probe timeout: a packet has kept room for a PING, and nothing had come"
    PROBE_BY_TRIGGER = "a probe timeout and its space: a packet is its probe"
    SIZE = "size: by the header and the frames, for the log does not have it"
    SIZE_BY_GROWTH = "size: that by which the bytes in flight grew, for the log's is another"
    TIMER_SPACE = "the space of a timer: the log does not have it"
    LOSS_TIMER = "a loss timer: no acknowledgment shows the losses"
    DISCARD = "discard: the log tells of none"
    CONFIRMED = "confirmed: the log does not say when"
    DELAY = "delay: within 2 ms of the log's, so that it counts as the report after it shows"
    ARRIVAL = "time: that of the reported sample, since the log's time was read late"
    MOMENT = "time: part of a millisecond earlier, so that a packet is not lost yet"
    LIMITED_BY_WINDOW = "limited: the window stayed as it was"
    LEAVE_PROBE = "leave probe: a probe timeout allowed it"
    LEAVE_RECOVERY = "leave recovery: the first packet past the window after it fell"
    TIME_BACK = "time: it went back, and is that of the line before"


# Guesses of a whole line, of which the log has no record.
OF_LINES = frozenset(
    (
        Guess.PROBE_BY_COUNT,
        Guess.PROBE_BY_PING,
        Guess.PROBE_BY_ROOM,
        Guess.PROBE_BY_TRIGGER,
        Guess.LOSS_TIMER,
        Guess.DISCARD,
        Guess.CONFIRMED,
    )
)


class Omission(Enum):
    """What a log says and the trace does not."""

    ACK_OF_GONE_SPACE = "an acknowledgment of a discarded space"
    ACK_OF_NOTHING = "an acknowledgment frame without ranges"
    LEFT_FLIGHT = "packets that left the bytes in flight with no event"
    FLIGHT_DIFFERS = "bytes in flight below those of the packets that are open"
    LOSS_OF_NOTHING = "a loss that neither an acknowledgment nor a timer shows"
    LOSS_BEFORE_RETRY = "a loss of a packet that was sent before a Retry, which resets recovery"
    LOSS_NOT_IN_FLIGHT = "a loss of a packet that is not in flight"
    LOSS_OF_PROBE = "a packet_lost by pto_expired: what a probe repeats stays in flight"
    IDLE_TIMER = "a timer that had been moved: it expired, and did nothing"
    BARE_TIMER = "a loss timer that found only packets that are not in flight"
    OTHER_TIMER = "a timer of another kind than loss and pto"
    LIMIT = (
        "the limit for late timers: the server may not send before the client's address is"
        " validated (RFC 9000, 8.1), and a trace does not show that"
    )


class Limit(Enum):
    """What a log shows that no trace can say, so that a good sender may be refused."""

    MARKS = (
        "acknowledgments report CE marks, of which traces say nothing: a window that falls by them,"
        " or the packet of an entry into recovery, may be refused"
    )
    CUT_CLOCK = (
        "each difference of its times is cut to a millisecond, so its clock falls behind, unless"
        " the sender's has whole milliseconds too: what times decide may be refused"
    )
    ACK_FREQUENCY = (
        "ACK_FREQUENCY frames change the peer's max_ack_delay, of which a trace has only one:"
        " probe timeouts may be refused"
    )
    TIME_THRESHOLD = (
        "its loss timers fire later than at the time threshold of the header: losses by time may be"
        " refused (--time-threshold-eighths)"
    )
    SAME_TICK = (
        "a packet is lost that was sent in the same tick in which a loss was declared before: by"
        " such times it does not enter recovery again, and what follows may be refused"
    )


class Notes:
    """How often each guess was made and each thing left out."""

    def __init__(self) -> None:
        self.guesses: Counter[Guess] = Counter()
        self.omissions: Counter[Omission] = Counter()
        self._of_next_line: list[Guess] = []
        # That the log has other traces or connections.
        self.others: list[str] = []
        # What is told in any case, since part of the log is not audited.
        self.warnings: list[str] = []
        # Those of them that a reader of a refusal has to know.
        self.of_header: list[str] = []
        # What the first reading found.
        self.findings: list[str] = []
        self.limits: set[Limit] = set()

    def guess(self, guess: Guess) -> None:
        """Counts a guess; the next line tells of it."""
        self.guesses[guess] += 1
        self._of_next_line.append(guess)

    def omit(self, omission: Omission, count: int = 1) -> None:
        """Counts what is left out."""
        self.omissions[omission] += count

    def misread(self, text: str) -> None:
        """Tells, also in the header of the trace, that a refusal may be due to the reading."""
        self.warnings.append(text)
        self.of_header.append(text)

    @property
    def guess_next_line(self) -> bool:
        """Whether the log has no record of the next line."""
        return not OF_LINES.isdisjoint(self._of_next_line)

    def for_next_line(self) -> dict[str, list[str]]:
        """The key by which a line tells of the guesses that stand in it."""
        told = [guess.value for guess in dict.fromkeys(self._of_next_line)]
        self._of_next_line = []
        return {"x_guess": told} if told else {}

    def told(self) -> list[str]:
        """What is told in any case: the warnings, and timers, which decide what may be sent."""
        timers = (Omission.OTHER_TIMER, Omission.IDLE_TIMER, Omission.BARE_TIMER)
        left = [f"left out {self.omissions[it]}: {it.value}" for it in timers if self.omissions[it]]
        return self.warnings + [it.value for it in Limit if it in self.limits] + left

    def lines(self) -> list[str]:
        """What `--notes` prints."""
        guessed = [f"guessed {count}: {it.value}" for it, count in self.guesses.items()]
        left = [f"left out {count}: {it.value}" for it, count in self.omissions.items()]
        return [f"found: {it}" for it in self.findings] + sorted(guessed) + sorted(left)
