"""Keys of the handshake: when they come, when they go, and when the handshake is confirmed."""

from .events import Event
from .flight import Flight
from .lines import Lines
from .notes import Guess, Notes
from .survey import Survey


class Handshake:
    """Writes the lines `keys`, `confirmed` and `discard`, where the log tells of them or by guess.

    Where the log tells of no discard, a client drops the Initial keys with its first Handshake
    packet and the Handshake keys when HANDSHAKE_DONE comes (RFC 9001, 4.9). A server drops them
    with the first Handshake packet that comes, and at the end of the handshake, each at the event
    behind which the reported bytes in flight have lost those of the space.
    """

    def __init__(
        self, role: str, survey: Survey, lines: Lines, flight: Flight, notes: Notes
    ) -> None:
        self.is_client = role == "client"
        self._survey, self._lines, self._flight, self._notes = survey, lines, flight, notes
        self.gone: set[str] = set()
        self.is_confirmed = False
        self.has_keys = False
        # A client's Initial keys are gone once the Initial packet of the same datagram is logged,
        # where the log says so before its first Handshake packet.
        self._initial_is_due = False
        # Where the log says so.
        self._initial_due_at = ""
        self._has_sent = False
        self._untold = {"initial", "handshake"} - survey.retired
        self._pending: list[str] = []

    @property
    def awaits_discard(self) -> bool:
        """Whether a discard is due once the bytes in flight show it."""
        return bool(self._pending)

    def take_keys(self, event: Event) -> None:
        """The Handshake keys are there."""
        if not self.has_keys:
            self.has_keys = True
            if self.is_client:
                self._lines.event("keys", event.time, event.place)

    def confirm(self, event: Event) -> None:
        """The handshake is confirmed."""
        if not self.is_confirmed:
            self.is_confirmed = True
            if "handshake" in self._untold:
                self._notes.guess(Guess.CONFIRMED)
            self._lines.event("confirmed", event.time, event.place)

    def discard(self, space: str, event: Event) -> None:
        """The keys of a space are gone."""
        if space in self.gone:
            return
        if space == "handshake":
            self.confirm(event)
        self.gone.add(space)
        self._flight.clear(space)
        if space in self._untold:
            self._notes.guess(Guess.DISCARD)
        is_due = space == "initial" and self._initial_is_due
        place = self._initial_due_at if is_due else event.place
        self._lines.event("discard", event.time, place, space=space)

    def on_keys_event(self, event: Event) -> None:
        """The log tells of keys."""
        space = event.key_space()
        if not event.retires_keys:
            if space == "handshake":
                self.take_keys(event)
        elif space == "initial" and self.is_client and not self._has_sent:
            self._initial_is_due, self._initial_due_at = True, event.place
        elif space:
            self.discard(space, event)

    def settle(self, event: Event, reported: int | None, change: int) -> None:
        """Makes the discards that are due by the bytes in flight reported behind an event.

        `change` is what the event itself adds to them.
        """
        while self._pending:
            space = self._pending[0]
            held = self._flight.bytes_of(space)
            total = sum(self._flight.bytes_of(it) for it in self._pending)
            left = self._flight.bytes + change
            if reported is not None and held > 0 and reported not in (left - held, left - total):
                return
            self._pending.pop(0)
            self.discard(space, event)

    def before_sent(self, event: Event, reported: int | None) -> bool:
        """Makes the discards that a packet shows; whether that of Initial is due behind it."""
        is_late = False
        if event.space == "handshake" and self.is_client and "initial" not in self.gone:
            is_late = self._is_late(event, reported)
            if not is_late and (self._initial_is_due or "initial" in self._untold):
                self.discard("initial", event)
        self._has_sent |= event.space == "handshake"
        if "handshake_done" in event.frame_types and "handshake" in self._untold:
            self._pending = []
            self.discard("handshake", event)
        return is_late

    def _is_late(self, event: Event, reported: int | None) -> bool:
        """Whether the report behind a Handshake packet still has the bytes of the Initial space."""
        if self._initial_is_due or "initial" not in self._untold or reported is None:
            return False
        return reported == self._flight.bytes + event.size * event.is_in_flight

    def on_done(self, event: Event) -> None:
        """A client took in HANDSHAKE_DONE."""
        if self.is_client and "handshake" in self._untold:
            self.discard("handshake", event)

    def after_received(self, event: Event) -> None:
        """A packet that came may make discards due at a server."""
        if self.is_client:
            return
        survey = self._survey
        if event.index == survey.first_handshake_received and "initial" in self._untold:
            self._pending.append("initial")
        is_last = event.index == survey.last_crypto_before_done
        if is_last and survey.handshake_done is not None and "handshake" in self._untold:
            self._pending.append("handshake")
