"""A test of the sender."""

from conftest import Audit
from sender import SIZE, Sender


class Hook:
    """Writes what the sender does as lines of the trace."""

    def __init__(self, audit: Audit) -> None:
        self.audit = audit
        audit.line("header", version=1, role="server", max_datagram_size=SIZE)

    def on_packet_sent(self, time: int, number: int) -> None:
        """A packet was sent."""
        keys = {"space": "app", "number": number, "size": SIZE}
        self.audit.line("sent", time=time, **keys, eliciting=True, in_flight=True)

    def on_ack_received(self, time: int, first: int, last: int) -> None:
        """An acknowledgment came."""
        self.audit.line("ack", time=time, space="app", ranges=[[first, last]])


def test_transfer(audit: Audit) -> None:
    sender = Sender(Hook(audit))
    sender.send_all()
    sender.receive(100_000)
    sender.send_all()
    audit.finish()
