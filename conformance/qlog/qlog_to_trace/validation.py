"""How long a server is silent that may not send, since the client's address is not validated."""

from .events import Event
from .sizes import length_of_hex, token_of

# RFC 9000, section 8.1: how many bytes it may send for each that came.
AMPLIFICATION = 3
# RFC 9000, section 14.1: the size of a datagram with an Initial packet. A probe has that size too.
LEAST_DATAGRAM = 1200


class Validation:
    """The longest silences of a server that may not send.

    A server that has no room for a datagram sets no probe timeout (RFC 9002, section 6.2.2.1), and
    a trace has no line for that. An address is validated by a token, or by a packet that only who
    has read the server's packets can send.
    """

    def __init__(self, role: str) -> None:
        # Nanoseconds: before an acknowledgment came, and behind one.
        self.longest_silence = self.longest_silence_behind_ack = 0
        self._is_over = role != "server"
        self._has_ack = False
        # Bytes that came, and that were sent.
        self._received = self._sent = 0
        # When the last ack-eliciting packet was sent, or a timer expired.
        self._last: int | None = None

    def see(self, event: Event) -> None:
        """Looks at the next event."""
        if self._is_over:
            return
        if event.name == "packet_received" and event.space:
            self._see_silence(event)
            self._see_received(event)
        elif event.name == "packet_sent" and event.space:
            self._see_silence(event)
            self._sent += event.size
            if event.is_eliciting:
                self._last = event.time
        elif event.has_expired:
            self._last = event.time

    def _see_silence(self, event: Event) -> None:
        has_room = AMPLIFICATION * self._received - self._sent >= LEAST_DATAGRAM
        if self._last is None or has_room:
            return
        silence = event.time - self._last
        if self._has_ack:
            self.longest_silence_behind_ack = max(self.longest_silence_behind_ack, silence)
        else:
            self.longest_silence = max(self.longest_silence, silence)

    def _see_received(self, event: Event) -> None:
        has_token = length_of_hex(token_of(event.header)) > 0
        self._is_over = has_token or event.space == "handshake" or event.packet_type == "1rtt"
        self._has_ack |= bool(event.acks)
        # Some logs have the size of an Initial packet without the rest of its datagram.
        least = LEAST_DATAGRAM if event.space == "initial" else 0
        self._received += max(event.size if event.has_size else 0, least)
