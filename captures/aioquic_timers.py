#!/usr/bin/env python3
"""Prints for what aioquic's own recovery code sets its timer, and for what RFC 9002 does.

aioquic_timers.py runs the class `QuicPacketRecovery` of the installed aioquic by itself, without a
connection or a clock, over the handshake of a client, and conformance/sender.py over the same
events: the client's Finished is not acknowledged for a while, and it goes on to send 1-RTT packets.

The exit status is 0, or 1 if aioquic is not installed; then a line says so.
"""

import importlib
import sys
from pathlib import Path
from typing import Any, NamedTuple

sys.path.insert(0, str(Path(__file__).parent.parent / "conformance"))

from sender import Event, Sender  # noqa: E402

SIZE = 1200
HEADER: Event = {"event": "header", "version": 1, "role": "client", "max_datagram_size": SIZE}
MODULES = ("configuration", "packet", "packet_builder", "rangeset", "recovery")
# The place of a space in aioquic, the name of its epoch and that of its packets.
SPACES = {
    "initial": (0, "INITIAL", "INITIAL"),
    "handshake": (1, "HANDSHAKE", "HANDSHAKE"),
    "app": (2, "ONE_RTT", "ONE_RTT"),
}
NONE = "none"
# What aioquic's clock has when that of the printed times has 0: it takes a time of 0 for none.
ORIGIN = 1.0


class Step(NamedTuple):
    """An event, what it is, and for what each of the two has set its timer after it, in
    milliseconds."""

    what: str
    aioquic: float | None
    rfc: float | None
    space: str


class Timeout(NamedTuple):
    """What a probe timeout does while a packet with CRYPTO data is in flight: the bytes in flight
    and the window, before and after, and how often a probe was asked for."""

    in_flight: tuple[int, int]
    window: tuple[int, int]
    probes: int


def modules() -> dict[str, Any] | None:
    """The modules of aioquic that are needed, if it is installed."""
    try:
        found = {name: importlib.import_module(f"aioquic.quic.{name}") for name in MODULES}
        found["tls"] = importlib.import_module("aioquic.tls")
    except ImportError:
        return None
    return found


class Client:
    """A client's recovery code in aioquic, and beside it the sender of conformance/sender.py."""

    def __init__(self, aioquic: dict[str, Any]) -> None:
        self.aioquic = aioquic
        self.probes = 0
        self.numbers = dict.fromkeys(SPACES, 0)
        configuration = aioquic["configuration"].QuicConfiguration()
        self.recovery = aioquic["recovery"].QuicPacketRecovery(
            congestion_control_algorithm="reno",
            initial_rtt=configuration.initial_rtt,
            max_datagram_size=SIZE,
            peer_completed_address_validation=False,
            send_probe=self.on_probe,
        )
        self.recovery.spaces = [aioquic["recovery"].QuicPacketSpace() for _ in SPACES]
        self.sender = Sender(HEADER)

    def on_probe(self) -> None:
        """A probe timeout asks for a packet."""
        self.probes += 1

    def send(self, time: int, space: str) -> None:
        """Sends an ack-eliciting packet, at a time in milliseconds. Those of the handshake have
        CRYPTO data."""
        place, epoch, kind = SPACES[space]
        number = self.numbers[space]
        self.numbers[space] += 1
        packet = self.aioquic["packet_builder"].QuicSentPacket(
            epoch=self.aioquic["tls"].Epoch[epoch],
            in_flight=True,
            is_ack_eliciting=True,
            is_crypto_packet=space != "app",
            packet_number=number,
            packet_type=self.aioquic["packet"].QuicPacketType[kind],
            sent_time=ORIGIN + time / 1000,
            sent_bytes=SIZE,
        )
        self.recovery.on_packet_sent(packet=packet, space=self.recovery.spaces[place])
        self.follow("sent", time, space, number=number, size=SIZE, eliciting=True, in_flight=True)

    def acknowledge(self, time: int, space: str) -> None:
        """Takes an acknowledgment of the first packet of a space, without a delay."""
        place = SPACES[space][0]
        self.recovery.on_ack_received(
            ack_rangeset=self.aioquic["rangeset"].RangeSet([range(1)]),
            ack_delay=0.0,
            now=ORIGIN + time / 1000,
            space=self.recovery.spaces[place],
        )
        # As QuicConnection._handle_ack_frame has it.
        if space == "handshake":
            self.recovery.peer_completed_address_validation = True
        self.follow("ack", time, space, ranges=[[0, 0]])

    def discard(self, time: int, space: str) -> None:
        """Discards the keys of a space."""
        self.recovery.discard_space(self.recovery.spaces[SPACES[space][0]])
        self.follow("discard", time, space)

    def follow(self, event: str, time: int, space: str, **more: Any) -> None:
        """Has the sender after the RFC follow an event."""
        said = {"event": event, "time": time * 1000, "space": space, **more}
        broken = self.sender.first_broken(said)
        if broken:
            raise ValueError(f"{said} breaks {broken}")
        self.sender.follow(said)

    def step(self, what: str) -> Step:
        """For what the timers are set now."""
        due, deadline = self.recovery.get_loss_detection_time(), self.sender.deadline()
        own = None if due is None else round(1000 * (due - ORIGIN), 3)
        if deadline is None:
            return Step(what, own, None, NONE)
        return Step(what, own, deadline.time / 1000, deadline.space)


def steps(aioquic: dict[str, Any]) -> list[Step]:
    """The timers after each event of a handshake whose last packet is not acknowledged at once."""
    client = Client(aioquic)
    client.send(0, "initial")
    told = [client.step("Initial 0 is sent at 0")]
    client.acknowledge(50, "initial")
    client.send(50, "handshake")
    client.discard(50, "initial")
    told.append(client.step("it is acknowledged, and Handshake 0 is sent, at 50"))
    for number, time in enumerate(range(60, 161, 25)):
        client.send(time, "app")
        told.append(client.step(f"1-RTT {number} is sent at {time}"))
    client.acknowledge(190, "handshake")
    told.append(client.step("Handshake 0 is acknowledged at 190, not confirmed"))
    return told


def at_a_timeout(aioquic: dict[str, Any]) -> Timeout:
    """What the first probe timeout does to a packet of the Initial space."""
    client = Client(aioquic)
    client.send(0, "initial")
    recovery = client.recovery
    in_flight, window = recovery.bytes_in_flight, recovery.congestion_window
    recovery.on_loss_detection_timeout(now=recovery.get_loss_detection_time())
    return Timeout(
        (in_flight, recovery.bytes_in_flight), (window, recovery.congestion_window), client.probes
    )


def shown(time: float | None) -> str:
    """A time in milliseconds."""
    return NONE if time is None else f"{time:g}"


def main() -> int:
    """Prints both tables, and returns the exit status."""
    aioquic = modules()
    if aioquic is None:
        print("aioquic is not installed: Debian's package is python3-aioquic", file=sys.stderr)
        return 1
    print(f"aioquic {importlib.import_module('aioquic').__version__}, times in milliseconds\n")
    print("| After | aioquic's timer | RFC 9002 | of |")
    print("|---|---|---|---|")
    for it in steps(aioquic):
        print(f"| {it.what} | {shown(it.aioquic)} | {shown(it.rfc)} | {it.space} |")
    told = at_a_timeout(aioquic)
    print("\nThe probe timeout of an Initial packet with CRYPTO data:")
    print("bytes in flight {} to {}".format(*told.in_flight))
    print("window {} to {}".format(*told.window))
    print(f"probes that are asked for {told.probes}")
    return 0


if __name__ == "__main__":
    sys.exit(main())
